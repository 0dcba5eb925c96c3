# The chooser (Q-1): the two examples' scripts, and the rows of `choose`.
from parts.lines import *
from parts.rules import DEVICES,named
from parts.steps import paged,write
from parts.stories import xpaged,xtable

# what choose prints: block k of device 0, and how many are free; or a refusal, with zeros
def gives(k,free): return 'answer=0 block=%d addr=%d free=%d'%(k,262144+65536*k,free)
def zeros(n): return 'answer=%d block=0 addr=0 free=0'%n

# THE EXAMPLE of a choice and its turn
def choose_begins():
    xa('A new device; its root holds the number 100.','format device=0 contents=100',0)
    x('4: nothing is loaded, so no block is given. A refused choose prints zeros.','choose',zeros(4))
    xa('The box is switched on.','step=10 v=SendPersistentLocOp vloc='+AREA1,0)
    xtable(AREA1)
    x('The first block given is block 1, since block 0 holds the root. 127 are free.','choose',gives(1,127))
    xpaged('The root',0,2,0)
    xa('It becomes 101 ..','step=15 v=AdvanceOp node=101:',0)
    xa('.. and is written to the block that was given.','step=1 d=ReqWriteNodeOp id=3 loc=%s node=cached'%block(1),0)
    x('The next one is block 2. Block 1 is being written, so that 126 are free.','choose',gives(2,126))
    xa('The drive answers.','step=2 d=RespWriteNodeOp id=3',0)
    xa('A card comes in, 72, under reference 1 ..','step=16 ref=1 v=AdvanceOp node=72:',0)
    xa('.. and is written to block 2 ..','step=1 ref=1 d=ReqWriteNodeOp id=4 loc=%s node=cached'%block(2),0)
    xa('.. which the drive answers.','step=2 d=RespWriteNodeOp id=4',0)
    x('Block 3.','choose',gives(3,125))
    x('A block that was given is still free until it is written to. Asked again, the chooser gives the next one, and as many are free.','choose',gives(4,125))
    x('Three blocks are held: block 0 by the persistent table, 1 and 2 by the ephemeral one.','show','phase=Ready allocated=2 cached=2 writes=0 reads=0',dots('PEE'))
def choose_goes_round():
    xa('The card is corrected: no table has block 2 any longer ..','step=15 ref=1 v=AdvanceOp node=73:',0)
    x('.. and 126 are free. To spread wear, block 2 waits for its turn.','choose',gives(5,126))
    c(b'One after the other, up to block 127.')
    for k in range(6,128): l('choose',gives(k,126))
    x('After block 127 it goes round to block 0. That is held, and so is block 1; block 2 has its turn.','choose',gives(2,126))
    xa('The corrected card is written there ..','step=1 ref=1 d=ReqWriteNodeOp id=5 loc=%s node=cached'%block(2),0)
    xa('.. which the drive answers.','step=2 d=RespWriteNodeOp id=5',0)
def choose_after_load():
    xa('That is frozen ..','step=12 v=FreezeOp',0)
    xa('.. its table goes to area 2 ..','step=3 d=ReqWriteIndirectionTableOp id=6 loc=%s table=frozen'%AREA2,0)
    xa('.. and that place is named.','step=4 v=SendFrozenLocOp vloc=%s d=RespWriteIndirectionTableOp id=6'%AREA2,0)
    x('Three blocks are held, as before: a start from area 1 would need block 0.','choose',gives(3,125))
    xa('Area 1 is given up ..','step=13 v=CleanUpOp',0)
    x('.. and block 0 is free. The chooser goes on from where it was.','choose',gives(4,126))
    x('Block 0 still has its record, which nobody needs.','show','phase=Ready allocated=2 cached=2 writes=0 reads=0',dots('o**'))
    xa('The lights go out.','step=18 v=CrashOp',0)
    x('4: nothing is loaded.','choose',zeros(4))
    xa('The next morning.','step=10 v=SendPersistentLocOp vloc='+AREA2,0)
    xtable(AREA2)
    x('After a load the chooser begins as though block 127 had been given, so with block 0 ..','choose',gives(0,126))
    x('.. and then passes over blocks 1 and 2, which are held.','choose',gives(3,126))
    x('No choose has changed a name or a picture.','audit','place=%s %s'%(AREA2,OK))
def choose():
    choose_begins(); choose_goes_round(); choose_after_load()

# THE EXAMPLE of a full device: 1 block of the persistent table, 64 of the frozen and 63 of the ephemeral one. Reference 0 is the root, the others are cards.
def given(ref,k,free):
    l('choose',gives(k,free))
    a('step=1 ref=%d d=ReqWriteNodeOp id=%d loc=%s node=cached'%(ref,ref,block(k)),0)
    a('step=2 d=RespWriteNodeOp id=%d'%ref,0)
def xgiven(comment,ref,k,free):
    x(comment,'choose',gives(k,free))
    xa('.. is written to it ..','step=1 ref=%d d=ReqWriteNodeOp id=%d loc=%s node=cached'%(ref,ref,block(k)),0)
    xa('.. and the drive answers.','step=2 d=RespWriteNodeOp id=%d'%ref,0)
def full_show(comment,writes,row): x(comment,'show','phase=Ready allocated=64 cached=64 writes=%d reads=0'%writes,dots(row))
def full_once():
    xa('A new device; its root holds the number 100.','format device=0 contents=100',0)
    xa('The box is switched on.','step=10 v=SendPersistentLocOp vloc='+AREA1,0)
    xtable(AREA1)
    xpaged('The root',0,2,0)
    c(b'Cards come in, 1 to 63, each with its own number: with the root that is all the references that there are.')
    for r in range(1,64): a('step=16 ref=%d v=AdvanceOp node=%d:'%(r,r),0)
    xa('The root becomes 101. Only the persistent table has block 0 now.','step=15 v=AdvanceOp node=101:',0)
    xgiven('Each is written to the block that the chooser has just given. Block 1 is given, 127 are free; card 1 ..',1,1,127)
    # before card r is written, blocks 0 to r-1 are held
    for first in range(2,64,8):
        last=min(first+7,63)
        c(b'Cards %d to %d, to blocks %d to %d.'%(first,last,first,last))
        for r in range(first,last+1): given(r,r,128-r)
    xgiven('Block 64 is given, 64 are free; the root ..',0,64,64)
    full_show('The persistent table has block 0, the ephemeral one blocks 1 to 64.',0,'P'+'E'*64)
def full_twice():
    xa('That is frozen: from now on the frozen table has blocks 1 to 64 too.','step=12 v=FreezeOp',0)
    c(b'Each card is corrected, by 100 ..')
    for r in range(1,64): a('step=15 ref=%d v=AdvanceOp node=%d:'%(r,100+r),0)
    xa('.. and the root becomes 102.','step=15 v=AdvanceOp node=102:',0)
    full_show('The ephemeral table has no location any longer.',0,'P'+'F'*64)
    # before card r is written, blocks 0 to 63+r are held
    for first in range(1,63,8):
        last=min(first+7,62)
        c(b'Cards %d to %d, to blocks %d to %d.'%(first,last,64+first,64+last))
        for r in range(first,last+1): given(r,64+r,64-r)
    x('One block is left, the last ..','choose',gives(127,1))
    x('.. and asked again, the chooser goes all the way round to it: no other is free.','choose',gives(127,1))
    xa('Card 63 is written to it.','step=1 ref=63 d=ReqWriteNodeOp id=63 loc=%s node=cached'%block(127),0)
    x('21: all 128 blocks are marked.','choose',zeros(21))
    full_show('One by the persistent table, 64 by the frozen one, 62 by the ephemeral one, and one is being written.',1,'P'+'F'*64+'E'*62+'W')
    xa('The drive answers.','step=2 d=RespWriteNodeOp id=63',0)
    x('21: the ephemeral table has that block now.','choose',zeros(21))
    xa('7: there is no block for the root, and to guess one is of no use.','step=1 d=ReqWriteNodeOp id=1 loc=%s node=cached'%block(64),7)
def full_freed():
    xa('Card 7 is corrected once more, which frees its block, 71.','step=15 ref=7 v=AdvanceOp node=207:',0)
    xgiven('It is given; card 7 ..',7,71,1)
    x('21.','choose',zeros(21))
    xa('Card 3 is corrected, which frees block 67 ..','step=15 ref=3 v=AdvanceOp node=203:',0)
    xa('.. and card 20, which frees block 84.','step=15 ref=20 v=AdvanceOp node=220:',0)
    xgiven('Block 71 was given last, and a refused choose changes nothing: so block 84 is given first. Card 20 ..',20,84,2)
    xgiven('Then block 67; card 3 ..',3,67,1)
    x('21.','choose',zeros(21))
    xa('The frozen table is written to area 2 ..','step=3 d=ReqWriteIndirectionTableOp id=1 loc=%s table=frozen'%AREA2,0)
    xa('.. and that place is named.','step=4 v=SendFrozenLocOp vloc=%s d=RespWriteIndirectionTableOp id=1'%AREA2,0)
    x('21: a start from area 1 would need block 0.','choose',zeros(21))
    xa('Area 1 is given up, which frees block 0.','step=13 v=CleanUpOp',0)
    xgiven('It is given; the root ..',0,0,1)
    x('21.','choose',zeros(21))
    full_show('64 blocks of the persistent table and 64 of the ephemeral one.',0,'E'+'P'*64+'E'*63)
    xa('The lights go out.','step=18 v=CrashOp',0)
    x('Nothing is lost of the place that is named.','audit','place=%s %s'%(AREA2,OK))
    xa('The next morning.','step=10 v=SendPersistentLocOp vloc='+AREA2,0)
    xtable(AREA2)
    x('Only the 64 blocks of that table are held.','choose',gives(0,64))
    xpaged('Card 7',7,2,7)
    x('7, as it was when it was frozen: no correction since was named.','step=17 ref=7','answer=0 contents=7 succs= picture=same')
def full():
    full_once(); full_twice(); full_freed()

# THE ROWS
def chosen(k,free): l('choose',gives(k,free))
def not_chosen(n): l('choose',zeros(n))
def choose_devices():
    for d,t1,t2,n,size in DEVICES:
        c(b'choose on device %d: 4 with zeros while Unready and while Loading; then block 1 and, with nothing between, block 2, as many free.'%d)
        a('format device=%d contents=7'%d,0)
        not_chosen(4)
        a('step=10 v=SendPersistentLocOp vloc=%d+4096'%t1,0)
        not_chosen(4)
        a('step=8 d=ReqReadIndirectionTableOp id=1 loc=%d+4096'%t1,0)
        not_chosen(4)
        a('step=9 d=RespReadIndirectionTableOp id=1 table=stored',0)
        for k in [1,2]: l('choose','answer=0 block=%d addr=%d free=127'%(k,n+k*size))
def choose_marks():
    c(b'A write that is outstanding marks its block, of whatever length it is. Of a clean node it changes no table, so that its answer frees the block.')
    paged()
    chosen(1,127)
    a('step=1 d=ReqWriteNodeOp id=1 loc=%d+1 node=cached'%(262144+65536),0)
    chosen(2,126)
    a('step=2 d=RespWriteNodeOp id=1',0)
    chosen(3,127)
    c(b'A read marks nothing, nor does a call that is refused.')
    a('step=11',0); a('step=6 d=ReqReadNodeOp id=7 loc='+block(0),0); chosen(4,127); a('step=7 d=RespReadNodeOp id=7 node=stored',0)
    a('step=1 d=ReqWriteNodeOp id=1 loc=%s node=6:'%block(5),9); chosen(5,127)
    c(b'A changed root: block 0 is still the persistent table\'s. Written to block 7, which was not given: that one is passed over.')
    a('step=15 v=AdvanceOp node=6:',0)
    write(0,1,7)
    chosen(6,126); chosen(8,126)
    c(b'Frozen, and changed again: block 7 is the frozen table\'s alone. Block 9 is marked while it is written, and afterwards.')
    a('step=12 v=FreezeOp',0); chosen(9,126)
    a('step=15 v=AdvanceOp node=7:',0); chosen(10,126)
    a('step=1 d=ReqWriteNodeOp id=1 loc=%s node=cached'%block(9),0); chosen(11,125)
    a('step=2 d=RespWriteNodeOp id=1',0); chosen(12,125)
    c(b'The table write marks nothing and refuses nothing here. The clean-up frees block 0, and block 7 is the persistent table\'s.')
    a('step=3 d=ReqWriteIndirectionTableOp id=3 loc=%s table=frozen'%AREA2,0); chosen(13,125)
    a('step=4 v=SendFrozenLocOp vloc=%s d=RespWriteIndirectionTableOp id=3'%AREA2,0); chosen(14,125)
    a('step=13 v=CleanUpOp',0); chosen(15,126)
    c(b'A card that is written and given up.')
    a('step=16 ref=1 v=AdvanceOp node=8:',0); chosen(16,126)
    write(1,1,16); chosen(17,125)
    a('step=5 ref=1 v=AdvanceOp uiop=NoOp',0); chosen(18,126)
    l('show','phase=Ready allocated=1 cached=1 writes=0 reads=0',dots('oo.....P.E......o'))
    named([AREA2])
def choose_loads():
    c(b'After a crash 4. After each load the chooser begins as though block 127 had been given, whatever it gave before. Block 9 is free again; block 7 is held, and passed over.')
    for turn in [[0,1],[0,1,2,3,4,5,6,8,9]]:
        a('step=18 v=CrashOp',0); not_chosen(4)
        start(AREA2)
        for k in turn: chosen(k,127)
    named([AREA2])
def choose_words():
    c(b'What is not of the form. Such a line asks for nothing.')
    a('format device=0 contents=5',0)
    start(AREA1)
    chosen(1,127)
    for s in [
        'choose ',' choose','choose  ','choose x=1','choose x','choose 1','choose=','choose=1','choose ref=0','choose device=0','choose loc=0+4096','choose choose','choose audit',
        'audit choose','choose\t','choose\r','Choose','CHOOSE','chooses','choos','chose','choose#','format device=0 contents=5 choose','step=14 choose','step=choose'
    ]: e(s)
    chosen(2,127)
    c(b'')
def choose_rows():
    choose_devices(); choose_marks(); choose_loads(); choose_words()
