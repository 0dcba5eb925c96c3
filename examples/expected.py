# expected.py REPLAY EXAMPLES: writes REPLAY/stdin, REPLAY/stdout and EXAMPLES/*.replay from the pairs in parts/, each line with what documents 01 and 02
# and docs/REPLAY.md say it prints, derived by hand. From the top: python3 examples/expected.py crates/replay examples
import sys
sys.dont_write_bytecode=True
from parts.choose import choose,choose_rows,full
from parts.lines import AREA1,EX,OK,P,c,example,l
from parts.lives import before_format,edges,last_blocks,life
from parts.round import a_round,round_rows
from parts.rules import rule_rows,rules
from parts.screen import screen_rows
from parts.small import small,small_rows
from parts.steps import letgo_rows,rows
from parts.stories import contents,crash,day,letgo,places,refusals,screen
from parts.words import contents_words,place_words,words

before_format(); edges(); life(); rows(); last_blocks()
example('day','A day at the club: load, change, write back, freeze, clean up, crash, and the next morning.',day)
example('crash','Two crashes before a clean-up: one while the new table is being written, one after it is.',crash)
example('refusals','A refused call of each number of document 01 that a script can reach.',refusals)
words()
example('places',"What is this place? Document 01's places at the edges of device 0, and places of each kind on each device.",places)
place_words()
example('contents','Contents of two numbers: cards that differ in high alone, cards as they were with one number, and a crash.',contents)
contents_words()
letgo_rows()
example('letgo','A drive that brings nothing: the wait for a card is let go, and the card is read after all; the next morning the same with the table.',letgo)
example('screen','What a member sees: the screen agrees with the working picture, whatever was changed, dropped or lost; and a start that nothing is promised of.',screen)
screen_rows()
example('rules','Two rules for a second freeze: under rule 1 it un-names the place that was reported, under rule 2 it is refused.',rules)
rule_rows()
example('choose','A free block: the chooser gives the next one in turn, goes round after the last, and begins anew after a load.',choose)
example('full','A full device: each write goes to the block that the chooser gave, until all 128 are marked; then blocks become free again.',full)
choose_rows()
example('small','A table by its number: what a loader that is given the wrong table answers, and the right one.',small)
small_rows()
example('round','A round in one call: a card, a player and the list together; one that is refused at its second operation, and a crash.',a_round)
round_rows()
c(b'The last line has no line feed.')
l('audit','place=%s %s'%(AREA1,OK))

out=[]; calls=acc=ref=err=0
for n,(s,o) in enumerate(P,1):
    for x in o or (): out.append('line=%d %s'%(n,x))
    if o and o[0].startswith('answer=') and ' kind=' not in o[0]:  # place is no call
        calls+=1
        if o[0].split()[0]=='answer=0': acc+=1
        else: ref+=1
    if o==('error',): err+=1
out.append('calls=%d accepted=%d refused=%d errors=%d'%(calls,acc,ref,err))
for name,(head,i,j) in EX.items():
    open(sys.argv[2]+'/'+name+'.replay','wb').write(('# '+head+'\n').encode()+b'\n'.join(s for s,_ in P[i:j])+b'\n')
open(sys.argv[1]+'/stdin','wb').write(b'\n'.join(s for s,_ in P))
open(sys.argv[1]+'/stdout','w').write('\n'.join(out)+'\n')
