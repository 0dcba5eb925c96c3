# Several changes as one: the example's script, and the rows of step 20.
from parts.lines import *
from parts.stories import xpaged,xtable

# what step 20 prints: the answer, and the place of the operation that failed, 0 with every other answer
def placed(n,k=0): return 'answer=%d place=%d'%(n,k)
def ops(*os): return ''.join(' op='+o for o in os)
def s20(os,n,k=0,v='AdvanceOp',more=''): l('step=20 v=%s%s%s'%(v,more,ops(*os)),placed(n,k))
def xround(comment,os,n,k=0): x(comment,'step=20 v=AdvanceOp'+ops(*os),placed(n,k))
def read(ref,said): l('step=17 ref=%d'%ref,'answer=0 contents=%s picture=same'%said)
def xread(comment,ref,said): x(comment,'step=17 ref=%d'%ref,'answer=0 contents=%s picture=same'%said)
def no_card(comment,ref): x(comment,'step=17 ref=%d'%ref,'answer=8 contents=0 succs=')

# THE EXAMPLE
def round_begins():
    xa('A new device; its root, the club\'s list, holds the number 100.','format device=0 contents=100',0)
    xa('The box is switched on.','step=10 v=SendPersistentLocOp vloc='+AREA1,0)
    xtable(AREA1)
    xpaged('The list',0,2,0)
    xround('A round comes in: a card, 72, under reference 1; its player, 18, who has that card; and the list, which has both. The three are one call.',
        ['alloc/1/72:','alloc/2/18:1','dirty/0/101:1,2'],0)
    xread('The list as it is now ..',0,'101 succs=1,2')
    xread('.. the player ..',2,'18 succs=1')
    xread('.. and the card.',1,'72 succs=')
def round_refused():
    xround('A correction of the card, 71; then a card that was never handed in, under reference 3: 8, at place 1, the second operation.',
        ['dirty/1/71:','dirty/3/68:','dirty/0/102:1,2,3'],8,1)
    xread('Nothing of that round was taken, the correction before the refusal neither ..',1,'72 succs=')
    xread('.. nor what stood behind it.',0,'101 succs=1,2')
    x('Three references are in use, all in memory; nothing is outstanding.','show','phase=Ready allocated=3 cached=3 writes=0 reads=0',dots('P'))
    xround('Handed in once more it is refused likewise ..',['dirty/1/71:','dirty/3/68:','dirty/0/102:1,2,3'],8,1)
    xa('.. and right after it the lights go out.','step=18 v=CrashOp',0)
    x('The place that is named has all that belongs to it.','audit','place=%s %s'%(AREA1,OK))
def round_kept():
    xa('The next morning.','step=10 v=SendPersistentLocOp vloc='+AREA1,0)
    xtable(AREA1)
    xpaged('The list',0,2,0)
    xread('No round had been written, so the list is as it was, with no part of one.',0,'100 succs=')
    xround('The round is handed in again. The order counts: the list may have the player only once he is there. 13, at place 1.',
        ['alloc/1/72:','dirty/0/101:1,2','alloc/2/18:1'],13,1)
    xround('First the card, then the player, then the list.',['alloc/1/72:','alloc/2/18:1','dirty/0/101:1,2'],0)
    for k,(ref,what) in enumerate([(1,'The card is written to block 1 ..'),(2,'.. the player to block 2 ..'),(0,'.. and the list to block 3.')],1):
        xa(what,'step=1 ref=%d d=ReqWriteNodeOp id=%d loc=%s node=cached'%(ref,k,block(k)),0)
    for k in [1,2,3]: xa('The drive answers ..' if k<3 else '.. all three.','step=2 d=RespWriteNodeOp id=%d'%k,0)
    xa('That is frozen ..','step=12 v=FreezeOp',0)
    xa('.. its table goes to area 2 ..','step=3 d=ReqWriteIndirectionTableOp id=4 loc=%s table=frozen'%AREA2,0)
    xround('.. and meanwhile the card is corrected, twice in one call: the later one counts.',['dirty/1/71:','dirty/1/70:'],0)
    xread('70.',1,'70 succs=')
    xa('The place is named ..','step=4 v=SendFrozenLocOp vloc=%s d=RespWriteIndirectionTableOp id=4'%AREA2,0)
    xa('.. and the lights go out.','step=18 v=CrashOp',0)
    x('Both places have all that belongs to them.','audit','place=%s %s'%(AREA1,OK),'place=%s %s'%(AREA2,OK))
    xa('A start from the new one.','step=10 v=SendPersistentLocOp vloc='+AREA2,0)
    xtable(AREA2)
    xpaged('The list',0,2,3)
    xread('The whole round is there ..',0,'101 succs=1,2')
    xpaged('The card',1,3,1)
    xread('.. the card as it was when it was frozen: the correction had not been written.',1,'72 succs=')
def a_round(): round_begins(); round_refused(); round_kept()

# THE ROWS
def loaded(device,rule,area,root):
    a('format device=%d contents=100 rule=%d'%(device,rule),0)
    a('step=10 v=SendPersistentLocOp vloc='+area,0)
    a('step=8 d=ReqReadIndirectionTableOp id=1 loc='+area,0)
    a('step=9 d=RespReadIndirectionTableOp id=1 table=stored',0)
    a('step=6 d=ReqReadNodeOp id=2 loc='+root,0)
    a('step=7 d=RespReadNodeOp id=2 node=stored',0)
SAME=['dirty/0/%d:'%k for k in range(40)]
BAD=['dirty/64/1:']*40
def round_gates():
    c(b'Step 20, a list of operations. Unready: 2, 3 and 4 come before the list is looked at, whatever it has.')
    a('format device=0 contents=100',0)
    l('step=20',placed(2)); s20([],4); s20(BAD[:1],4); s20(SAME[:33],4); s20(BAD[:40],4); s20([],2,v='FreezeOp'); s20(BAD[:33],2,v='CrashOp')
    c(b'1 for the call itself: a reference, a node and a table may be named, and are judged as on any other step.')
    s20([],1,more=' ref=64'); s20([],1,v='FreezeOp',more=' node=5:64'); s20(SAME[:33],1,more=' table=0:64'); s20([],4,more=' ref=63 node=5:63 table=0:63')
    c(b'Loading.')
    a('step=10 v=SendPersistentLocOp vloc='+AREA1,0); s20([],4); s20(['alloc/1/1:'],4)
    c(b'Ready. V is any AdvanceOp, and there is no D: 3 comes before what the disk says of it.')
    loaded(0,1,AREA1,block(0))
    s20([],0); s20([],0,more=' uiop=NoOp'); l('step=20 v=AdvanceOp uiop=NoOp'+ops('dirty/0/101:'),placed(0))
    for v in ['StatesInternalOp','JournalInternalOp','FreezeOp','CleanUpOp','PushSyncOp','PopSyncOp','CrashOp']: s20(SAME[:1],2,v=v)
    for d in ['ReqReadNodeOp id=9 loc='+block(0),'RespReadNodeOp id=9','RespWriteNodeOp id=9','ReqWriteNodeOp id=9 loc=1+1','RespReadIndirectionTableOp id=9']:
        s20(SAME[:1],3,more=' d='+d)
    read(0,'101 succs=')
    for n in ['21','255','276']: a('step=%s v=AdvanceOp'%n,1)
def round_lengths():
    c(b'32 are taken, each in turn; 33 and more give 24, before any of them is looked at. 40 can be written in a line.')
    s20(SAME[:31],0); read(0,'30 succs='); s20(SAME[:32],0); read(0,'31 succs=')
    for n in [33,34,40]: s20(SAME[:n],24); s20(BAD[:n],24)
    read(0,'31 succs=')
    s20(SAME[:31]+['dirty/64/1:'],1,31); s20(SAME[:31]+['dirty/5/1:'],8,31); s20(BAD[:32],1); read(0,'31 succs=')
def round_turns():
    c(b'1 at its turn: a reference above 63, any 64-bit number, or a list that names one. An earlier refusal comes first, a later one is not looked at.')
    for o in ['dirty/64/1:','alloc/255/1:','alloc/%s/%s.%s:'%(M,M,M),'dirty/0/1:64','alloc/1/1:0,255','dirty/0/1:0,0,0,0,0,0,0,64']: s20([o],1); s20(['dirty/0/200:',o,'dirty/0/201:'],1,1)
    s20(['dirty/9/1:','dirty/64/1:'],8); s20(['dirty/64/1:','dirty/9/1:'],1); s20(['alloc/1/1:9','dirty/64/1:'],13)
    read(0,'31 succs=')
    c(b'Each on the state left by those before: a reference that has just come may be listed, written and not come again.')
    s20(['dirty/0/101:1','alloc/1/72:'],13); s20(['alloc/1/72:','alloc/1/72:'],8,1); s20(['alloc/1/72:1','dirty/0/101:1'],13)
    s20(['alloc/1/72:0','dirty/0/101:1','dirty/1/73:0,1','alloc/63/9.9:1,1,0,63'],13,3)
    l('step=17 ref=1','answer=8 contents=0 succs=')
    s20(['alloc/1/72:0','dirty/0/101:1','dirty/1/73:0,1','alloc/63/9.9:1,1,0'],0)
    read(1,'73 succs=0,1'); read(0,'101 succs=1'); read(63,'9.9 succs=1,1,0')
    c(b'8: written, but not cached; and come, though it is cached or allocated.')
    s20(['dirty/2/1:'],8); s20(['alloc/0/1:'],8); s20(['dirty/0/5:','alloc/63/1:'],8,1); read(0,'101 succs=1')
def round_frozen():
    c(b'11: the frozen table has the reference without a location. What comes before it in the list is not kept.')
    a('step=12 v=FreezeOp',0)
    s20(['dirty/0/6:'],11); s20(['alloc/5/1:','dirty/63/6:'],11,1)
    l('step=17 ref=5','answer=8 contents=0 succs=')
    s20(['alloc/5/1:'],0); read(5,'1 succs=')
    c(b'The marks after a list are those of what it leaves: the root is written to block 1, and a list that writes it frees that block.')
    loaded(0,1,AREA1,block(0))
    s20(['dirty/0/101:'],0)
    a('step=1 d=ReqWriteNodeOp id=3 loc=%s node=cached'%block(1),0); a('step=2 d=RespWriteNodeOp id=3',0)
    l('choose','answer=0 block=2 addr=393216 free=126')
    s20(['alloc/1/1:','dirty/0/102:1','dirty/64/1:'],1,2); l('choose','answer=0 block=3 addr=458752 free=126')
    s20(['alloc/1/1:','dirty/0/102:1'],0); l('choose','answer=0 block=4 addr=524288 free=127')
    l('show','phase=Ready allocated=2 cached=2 writes=0 reads=0',dots('Po'))
    a('step=18 v=CrashOp',0); l('audit','place=%s %s'%(AREA1,OK))
    c(b'The other devices, under rule 2.')
    for d,area,root in [(1,'270336+4096','917504+4096'),(2,'1056768+4096','4194304+4096')]:
        loaded(d,2,area,root); s20(['alloc/7/1.2:0,0','dirty/0/3:7'],0); read(7,'1.2 succs=0,0'); s20(['dirty/7/4:','dirty/8/4:'],8,1); read(7,'1.2 succs=0,0')
def round_words():
    c(b'What a line of step 20 may say: the operations in their order, other words before, between and behind them.')
    l('step=20 op=alloc/9/1: v=AdvanceOp op=dirty/9/2: uiop=Op op=dirty/0/8:9 d=NoDiskOp id=4',placed(0)); read(9,'2 succs=')
    l('step=20 v=AdvanceOp op=dirty/0/0.8:7,9',placed(0)); read(0,'8 succs=7,9')
    c(b'Not of the form: an operation, more than 40 of them, op= elsewhere, and words of other lines.')
    for o in ['','dirty','dirty/','dirty/0','dirty/0/','dirty/0/1','dirty//1:','dirty/-1/1:','dirty/00/1:','dirty/18446744073709551616/1:','dirty/0/1:256','dirty/0/none','dirty/0/stored',
        'dirty/0/cached','dirty/0/1:0,1,2,3,4,5,6,7,8','dirty/0/1:,','Dirty/0/1:','write/0/1:','unalloc/0/1:','alloc/0/1:/','alloc/0/1/2:','/0/1:','dirtyalloc/0/1:']: e('step=20 v=AdvanceOp op='+o)
    e('step=20 v=AdvanceOp op=dirty/0/1: op=dirty/0'); e('step=20 v=AdvanceOp op'); e('step=20 v=AdvanceOp Op=dirty/0/1:'); e('step=20 v=AdvanceOp  op=dirty/0/1:')
    e('step=20 v=AdvanceOp'+ops(*(SAME+SAME[:1]))); e('step=20'+ops(*(BAD+BAD[:1])))
    for n in [0,1,14,15,16,17,18,19,21,M]: e('step=%s op=dirty/0/1:'%n)
    e('step=20 v=AdvanceOp v=AdvanceOp'); e('step=20 ref=1 ref=1'); e('step=20 block=0:none'); e('step=20 table1=none'); e('step=20 table2=none'); e('step=20 device=0'); e('step=20 rule=1')
    for s in ['format device=0 contents=1 op=dirty/0/1:','place device=0 loc=0+1 op=dirty/0/1:','choose op=dirty/0/1:','audit op=dirty/0/1:','op=dirty/0/1:']: e(s)
    read(0,'8 succs=7,9')
    a('format device=0 contents=5',0)
def round_rows(): round_gates(); round_lengths(); round_turns(); round_frozen(); round_words(); c(b'')
