# Small tables (Q-13): the example's script, and the rows of `table=small/K`. The tables are written out by hand from document 02's order:
# the sets {0}, {0,1}, {0,2} and {0,1,2} begin at 0, 2, 18 and 34, and the list of 0 changes slowest.
from parts.lines import *
# each device's two table areas, its first node address and how long a block is
DEVICES=[(73728,139264,262144,65536),(270336,532480,917504,131072),(1056768,2105344,4194304,1048576)]

def lies(d,r): return '%d+4096'%(DEVICES[d][2]+r*DEVICES[d][3])
def area(d,k): return '%d+4096'%DEVICES[d][k]
def table(d,lists): return ';'.join('%d@%s:%s'%(r,lies(d,r),s) for r,s in lists)
def block_word(d,r,s): return 'block=%d:%s/%d:%s'%(r,lies(d,r),70+r,s)
def shown(lists):
    used=[r for r,_ in lists]
    return 'phase=Ready allocated=%d cached=0 writes=0 reads=0'%len(used), dots(''.join('*' if r in used else '.' for r in range(3)))
def asked(d,k):
    a('step=10 v=SendPersistentLocOp vloc='+area(d,k),0)
    a('step=8 d=ReqReadIndirectionTableOp id=1 loc='+area(d,k),0)
def answer(k,n,id=1): a('step=9 d=RespReadIndirectionTableOp id=%d table=small/%d'%(id,k),n)

# THE EXAMPLE
def small():
    xa('A new device: its root stands alone in block 0 and lists nothing. That is small table 0.','format device=0 contents=100',0)
    xa('A crash leaves another graph in area 2: references 0 and 2, of which 2 lists both.',
       'step=18 v=CrashOp table2=139264+4096/0@262144+4096:;2@393216+4096:0,2 block=2:393216+4096/72:0,2',0)
    xa('The box is started there ..','step=10 v=SendPersistentLocOp vloc='+AREA2,0)
    xa('.. and asks for the table.','step=8 d=ReqReadIndirectionTableOp id=1 loc='+AREA2,0)
    xa('9: past the last number is the empty table, which no cache loads.','step=9 d=RespReadIndirectionTableOp id=1 table=small/546',9)
    xa('17: the cache would load small table 20, but another one is stored.','step=9 d=RespReadIndirectionTableOp id=1 table=small/20',17)
    xa('Small table 21 is the one that is stored, and it is loaded.','step=9 d=RespReadIndirectionTableOp id=1 table=small/21',0)
    x('References 0 and 2 are in use, in blocks 0 and 2; block 1 is free.','show',*shown([(0,''),(2,'0,2')]))
    xa('It is frozen ..','step=12 v=FreezeOp',0)
    xa('.. and written to area 1, named by its number too.','step=3 d=ReqWriteIndirectionTableOp id=2 loc=%s table=small/21'%AREA1,0)

# THE ROWS
# small table k stored in area 2 by a crash: the root's list is empty, as formatting left its node
def stored(d,k,lists):
    a('format device=%d contents=100'%d,0)
    a('step=18 v=CrashOp table2=%s/%s %s'%(area(d,1),table(d,lists),' '.join(block_word(d,r,s) for r,s in lists[1:])),0)
    asked(d,1)
    answer(k-1,17); answer(k+1,17); answer(546,9); answer(int(M),9); answer(k,5,2)
    answer(k,0)
    l('show',*shown(lists))
    answer(k,4)
    c(b'Frozen it is the same table, and no other number is.')
    a('step=12 v=FreezeOp',0)
    for n,m in [(k-1,9),(k+1,9),(546,9),(k,0)]: a('step=3 d=ReqWriteIndirectionTableOp id=2 loc=%s table=small/%d'%(area(d,0),n),m)
# small table k on device 0, whose root lists something: one crash while block 0 is being written, one while area 1 is
def rooted(k,lists):
    a('format device=0 contents=100',0)
    start(AREA1)
    a('step=6 d=ReqReadNodeOp id=2 loc='+block(0),0)
    a('step=7 d=RespReadNodeOp id=2 node=stored',0)
    a('step=15 v=AdvanceOp node=101:',0)
    a('step=1 d=ReqWriteNodeOp id=2 loc=%s node=cached'%block(3),0)
    a('step=2 d=RespWriteNodeOp id=2',0)
    a('step=12 v=FreezeOp',0)
    a('step=3 d=ReqWriteIndirectionTableOp id=2 loc=%s table=frozen'%AREA2,0)
    a('step=4 v=SendFrozenLocOp vloc=%s d=RespWriteIndirectionTableOp id=2'%AREA2,0)
    a('step=13 v=CleanUpOp',0)
    a('step=15 v=AdvanceOp node=102:',0)
    a('step=1 d=ReqWriteNodeOp id=2 loc=%s node=cached'%block(0),0)
    a('step=18 v=CrashOp '+' '.join(block_word(0,r,s) for r,s in lists),0)
    start(AREA2)
    a('step=12 v=FreezeOp',0)
    a('step=3 d=ReqWriteIndirectionTableOp id=2 loc=%s table=frozen'%AREA1,0)
    a('step=18 v=CrashOp table1=%s/%s'%(AREA1,table(0,lists)),0)
    asked(0,0)
    answer(k-1,17); answer(k+1,17 if k<545 else 9)
    answer(k,0)
    used=[r for r,_ in lists]
    l('show','phase=Ready allocated=%d cached=0 writes=0 reads=0'%len(used),dots(''.join('*' if r in used else '.' for r in range(3))+'o'))
def small_stored():
    c(b'A newly formatted device has small table 0 in area 1, at its own first block.')
    for d in range(3):
        a('format device=%d contents=100'%d,0)
        asked(d,0)
        answer(1,17); answer(546,9)
        c(b'Let go goes by what is stored too.')
        for k in (1,546): a('step=19 d=RespReadIndirectionTableOp id=1 table=small/%d'%k,17)
        a('step=19 d=RespReadIndirectionTableOp id=1 table=small/0',0)
        a('step=8 d=ReqReadIndirectionTableOp id=1 loc='+area(d,0),0)
        answer(0,0)
        l('show',*shown([(0,'')]))
    c(b'Small tables that a crash left, on each device: two references and three, with lists of none, some and all of them.')
    for d in range(3):
        stored(d,2,[(0,''),(1,'')])
        stored(d,5,[(0,''),(1,'0,1')])
        stored(d,18,[(0,''),(2,'')])
        stored(d,20,[(0,''),(2,'2')])
        stored(d,34,[(0,''),(1,''),(2,'')])
        stored(d,36,[(0,''),(1,''),(2,'1')])
        stored(d,42,[(0,''),(1,'0'),(2,'')])
        stored(d,97,[(0,''),(1,'0,1,2'),(2,'0,1,2')])
    c(b'Small tables whose root lists something: the last of each set, and one at which the list of 0 has just changed.')
    rooted(1,[(0,'0')])
    rooted(17,[(0,'0,1'),(1,'0,1')])
    rooted(33,[(0,'0,2'),(2,'0,2')])
    rooted(98,[(0,'0'),(1,''),(2,'')])
    rooted(545,[(0,'0,1,2'),(1,'0,1,2'),(2,'0,1,2')])
def small_words():
    c(b'A table by its number may stand wherever a table may; past the last it is the empty table, whatever the number.')
    a('format device=0 contents=100',0)
    for s in ['small/0','small/545','small/546','small/'+M]: a('step=14 table='+s,0)
    a('step=18 v=CrashOp table=small/7',0)
    c(b'What is not of the form.')
    for s in [
        'small','small/','small/00','small/01','small/0x1','small/-1','small/+1','small/1x','small/1.','small/1.0','small/ 1','small/1:',
        'small/1:0','small/1;1:','small/1,2','small/1/','small//1','small/1/2','small=1','small1','small:1','Small/1','SMALL/1','smalls/1',
        '/1','/small/1','smal/1','small/18446744073709551616','small/99999999999999999999','small/1 table=small/1',
        'small/1 table=none','0:;small/1','empty/1','stored/1'
    ]: e('step=14 table='+s)
    for s in [
        'node=small/1','table1=73728+4096/small/0','table2=139264+4096/small/0','table1=small/0','block=0:262144+4096/small/0'
    ]: e('step=18 v=CrashOp '+s)
    e('step=14 small=1'); e('small/1'); e('step=small/1')
    l('audit','place=%s %s'%(AREA1,OK))
    c(b'')
def small_rows():
    small_stored(); small_words()
