# The freeze rules: the example's script, and the rows of 25 and of `rule=`.
from parts.lines import *
from parts.stories import xpaged,xtable

# THE EXAMPLE
def xwritten(comment,low,id,k):
    xa(comment,'step=15 v=AdvanceOp node=%d:'%low,0)
    xa('.. and is written to block %d ..'%k,'step=1 d=ReqWriteNodeOp id=%d loc=%s node=cached'%(id,block(k)),0)
    xa('.. which the drive answers.','step=2 d=RespWriteNodeOp id=%d'%id,0)
def upto_second_freeze(rule,head):
    xa(head,'format device=0 contents=100 rule=%d'%rule,0)
    xa('The box is switched on.','step=10 v=SendPersistentLocOp vloc='+AREA1,0)
    xtable(AREA1)
    xpaged('The root',0,2,0)
    xwritten('It becomes 101 ..',101,3,1)
    xa('That is frozen ..','step=12 v=FreezeOp',0)
    xa('.. and its table goes to area 2.','step=3 d=ReqWriteIndirectionTableOp id=4 loc=%s table=frozen'%AREA2,0)
    xa('10, under either rule: while the table is being written, no second freeze is taken.','step=12 v=FreezeOp',10)
    xa('It is written. The place is reported, and the journal may point at it from now on.','step=4 v=SendFrozenLocOp vloc=%s d=RespWriteIndirectionTableOp id=4'%AREA2,0)
    x('Both places are named.','audit','place=%s %s'%(AREA1,OK),'place=%s %s'%(AREA2,OK))
    xwritten('The root becomes 102 ..',102,5,2)
def rule_1():
    upto_second_freeze(1,'A new device under rule 1; its root holds the number 100. Without the word it would be rule 1 too.')
    xa('Under rule 1 a second freeze is taken ..','step=12 v=FreezeOp',0)
    x('.. and area 2 is not named any longer, though it was reported.','audit','place=%s %s'%(AREA1,OK))
    xa('Its table goes where the first one went.','step=3 d=ReqWriteIndirectionTableOp id=6 loc=%s table=frozen'%AREA2,0)
    xa('A crash while it is being written leaves nothing there.','step=18 v=CrashOp table2=none',0)
    xa('20: a journal that points at area 2 starts nothing.','step=10 v=SendPersistentLocOp vloc='+AREA2,20)
    xa('Area 1 is named, so a start there is taken ..','step=10 v=SendPersistentLocOp vloc='+AREA1,0)
    xtable(AREA1)
    xpaged('The root',0,2,0)
    x('.. and finds 100, from before either freeze.','step=17','answer=0 contents=100 succs= picture=same')
def rule_2():
    upto_second_freeze(2,'A new device under rule 2.')
    xa('25: under rule 2 a second freeze is not taken while a frozen place is set ..','step=12 v=FreezeOp',25)
    x('.. and area 2 stays named.','audit','place=%s %s'%(AREA1,OK),'place=%s %s'%(AREA2,OK))
    xa('11: nor is a table written over it.','step=3 d=ReqWriteIndirectionTableOp id=6 loc=%s table=frozen'%AREA2,11)
    xa('The lights go out.','step=18 v=CrashOp',0)
    x('A crash changes no name.','audit','place=%s %s'%(AREA1,OK),'place=%s %s'%(AREA2,OK))
    xa('The next morning the journal points at area 2. The start is accepted: from now on that is the one named place.','step=10 v=SendPersistentLocOp vloc='+AREA2,0)
    xtable(AREA2)
    xpaged('The root',0,2,1)
    x('101, as it was reported.','step=17','answer=0 contents=101 succs= picture=same')
    xwritten('It becomes 102 again ..',102,3,2)
    xa('No frozen place is set now, so a freeze is taken ..','step=12 v=FreezeOp',0)
    xa('.. and another one, since a frozen table alone refuses none.','step=12 v=FreezeOp',0)
    xa('Its table goes to area 1 ..','step=3 d=ReqWriteIndirectionTableOp id=4 loc=%s table=frozen'%AREA1,0)
    xa('.. and is written.','step=4 v=SendFrozenLocOp vloc=%s d=RespWriteIndirectionTableOp id=4'%AREA1,0)
    xa('25: that place is set. The rule came through the crash.','step=12 v=FreezeOp',25)
    xa('A clean-up gives up the other place ..','step=13 v=CleanUpOp',0)
    xa('.. and afterwards a freeze is taken.','step=12 v=FreezeOp',0)
    x('One place is named.','audit','place=%s %s'%(AREA1,OK))
def rules():
    rule_1(); rule_2()

# THE ROWS
def named(areas): l('audit',*['place=%s %s'%(p,OK) for p in areas])
# the root changed and written at an address, frozen, its table written to a place, which is named then
def to_named(place,at,low):
    a('step=15 v=AdvanceOp node=%d:'%low,0)
    a('step=1 d=ReqWriteNodeOp id=2 loc=%d+4096 node=cached'%at,0)
    a('step=2 d=RespWriteNodeOp id=2',0)
    a('step=12 v=FreezeOp',0)
    a('step=3 d=ReqWriteIndirectionTableOp id=3 loc=%s table=frozen'%place,0)
    a('step=4 v=SendFrozenLocOp vloc=%s d=RespWriteIndirectionTableOp id=3'%place,0)
def page_root(place,at):
    start(place)
    a('step=6 d=ReqReadNodeOp id=2 loc=%d+4096'%at,0)
    a('step=7 d=RespReadNodeOp id=2 node=stored',0)
DEVICES=[(0,73728,139264,262144,65536),(1,270336,532480,917504,131072),(2,1056768,2105344,4194304,1048576)]

def each_device():
    for d,t1,t2,n,size in DEVICES:
        one,two='%d+4096'%t1,'%d+4096'%t2
        c(b'The second freeze on device %d: 0 without the word and under rule 1, 25 under rule 2.'%d)
        for word,answer in [('',0),(' rule=1',0),(' rule=2',25)]:
            a('format device=%d contents=7%s'%(d,word),0)
            page_root(one,n)
            to_named(two,n+size,8)
            named([one,two])
            a('step=12 v=FreezeOp',answer)
            named([one,two] if answer else [one])
def before_25():
    c(b'25 is behind 1, 2, 3, 4 and 10, which are the same under both rules; under rule 2 it is given as often as it is asked for.')
    for rule in [1,2]:
        a('format device=0 contents=7 rule=%d'%rule,0)
        a('step=12 v=FreezeOp',4)
        page_root(AREA1,262144)
        a('step=12 v=FreezeOp',0)
        a('step=12 v=FreezeOp',0)
        to_named(AREA2,327680,8)
        a('step=12 v=FreezeOp ref=64',1)
        a('step=12 v=FreezeOp node=7:64',1)
        a('step=12',2)
        a('step=12 v=CleanUpOp',2)
        a('step=12 v=FreezeOp d=ReqReadNodeOp id=9 loc='+block(0),3)
        named([AREA1,AREA2])
    a('step=12 v=FreezeOp',25); a('step=12 v=FreezeOp',25)
def not_ended():
    c(b'A clean-up that is refused ends no frozen name, nor does a formatting that is refused: its rule is not taken.')
    a('step=13 v=FreezeOp',2); a('step=13 v=CleanUpOp ref=64',1); a('format device=0 contents=5 rule=3',1); a('format device=3 contents=5 rule=1',1)
    named([AREA1,AREA2])
    a('step=12 v=FreezeOp',25)
    a('step=12 v=FreezeOp ref=63 node=7:63 table=63:',25)
    a('step=14',0); a('step=15 v=AdvanceOp node=9:',0); a('step=12 v=FreezeOp',25)
def through_crashes():
    c(b'A crash keeps the rule, and the frozen place stays named until a start; there 4 comes first.')
    a('step=18 v=CrashOp',0)
    named([AREA1,AREA2])
    a('step=12 v=FreezeOp',4)
    a('step=18 v=CrashOp',0)
    c(b'No refused start ends it: at another length nothing is stored, and one byte further is no place of a table.')
    a('step=10 v=SendPersistentLocOp vloc=139264+8192',20); a('step=10 v=SendPersistentLocOp vloc=139265+4096',6)
    named([AREA1,AREA2])
    a('step=10 v=SendPersistentLocOp vloc='+AREA1,0)
    named([AREA1])
    a('step=12 v=FreezeOp',4)
    a('step=18 v=CrashOp',0)
    page_root(AREA1,262144)
    named([AREA1])
    to_named(AREA2,393216,9)
    a('step=12 v=FreezeOp',25)
    a('step=13 v=CleanUpOp',0)
    named([AREA2])
    a('step=12 v=FreezeOp',0)
    named([AREA2])
    a('step=13 v=CleanUpOp',11)
def not_reported():
    c(b'A place that is set and not reported yet is not named: after a crash while its table is being written a freeze is taken.')
    a('step=3 d=ReqWriteIndirectionTableOp id=3 loc=%s table=frozen'%AREA1,0)
    a('step=12 v=FreezeOp',10)
    named([AREA2])
    a('step=18 v=CrashOp table1=none',0)
    named([AREA2])
    page_root(AREA2,393216)
    a('step=12 v=FreezeOp',0)
def rule_words():
    c(b'Any 64-bit number may be written; what is neither 1 nor 2 is refused with 1, and the sequence before it stays.')
    for r in ['0','3','4','257','4294967297','9223372036854775810',M]: a('format device=0 contents=5 rule='+r,1)
    for d,r in [(3,1),(3,2),(3,3)]: a('format device=%d contents=5 rule=%d'%(d,r),1)
    named([AREA2])
    c(b'The three words in any order.')
    for s,answer in [('device=0 rule=2 contents=5',25),('rule=2 contents=5 device=0',25),('contents=5 rule=1 device=0',0),('rule=1 device=0 contents=5',0)]:
        a('format '+s,0)
        page_root(AREA1,262144); to_named(AREA2,327680,8)
        a('step=12 v=FreezeOp',answer)
    c(b'What is not of the form.')
    for r in ['','x','+1','-1','01','1.','.1','0.1','1.0','1,2','1x','0x1','18446744073709551616','20000000000000000000']: e('format device=0 contents=5 rule='+r)
    for s in [
        'format device=0 rule=1','format contents=5 rule=1','format rule=1','format device=0 contents=5 rule=1 rule=1','format device=0 contents=5 rule=1 rule=2',
        'format device=0 contents=5 rule','format device=0 contents=5  rule=1','format device=0 contents=5 rule=1 ','format device=0 contents=5 Rule=1',
        'format device=0 contents=5 rules=1','step=14 rule=1','step=12 v=FreezeOp rule=2','step=18 v=CrashOp rule=1','place device=0 loc=0+4096 rule=1','audit rule=1','show rule=1','rule=2',
        'rule=2 device=0 contents=5'
    ]: e(s)
    named([AREA1])
    c(b'')
def rule_rows():
    each_device(); before_25(); not_ended(); through_crashes(); not_reported(); rule_words()
