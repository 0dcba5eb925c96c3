# What a line may say, what the store refuses, and what is an error.
from parts.lines import *

def to(n):
    # a table up to n bytes, then more entries whose locations are padded by longer numbers
    s=b'step=14 id=1 v=PushSyncOp table=0:'; i=1
    while True:
        left=n-len(s)
        t=b';%d@10000000000000000000+10000000000000000000:63,63,63,63,63,63,63,63'%i
        if left>=len(t)+40: s+=t; i+=1; continue
        for k in range(1,21):
            for m in range(0,21):
                t=b';%d@%s+%s:'%(i,b'1'*k,b'1'*max(1,m))
                if len(t)==left: return s+t
        t=b';%d@10000000000000000000+10000000000000000000:'%i; s+=t; i+=1

def words():
    c(b'What can be written, and it is the store that refuses it.')
    a('format contents=5 device=2',0)
    a('format device=18446744073709551615 contents=0',1)
    a('step=0',1); a('step=19',3)  # no such step, and let go without an answer
    for s in [
        'step=18446744073709551615','step=14 ref=64','step=14 ref=18446744073709551615','step=14 node=1:64','step=14 node=1:0,1,2,3,4,5,6,255',
        'step=14 table=0:255','step=18 v=CrashOp block=0:4194304+4096/5:64'
    ]: a(s,1)
    l('step=17 ref=63','answer=4 contents=0 succs=')
    l('step=17 ref=64','answer=1 contents=0 succs=')
    a('step=14 v=AdvanceOp',2)
    a('step=14 d=ReqReadNodeOp',3)
    a('step=18 v=CrashOp block=1:4194304+4096/5:',19)
    a('step=18 v=CrashOp table1=none block=0:none',19)
    a('step=10 v=SendPersistentLocOp vloc=1056768+4095',20)
    a('step=10 v=SendPersistentLocOp vloc=18446744073709551615+18446744073709551615',6)
    c(b'A word left out is the same as its value if absent; words come in any order; an empty list, a full one.')
    a('step=14 ref=0 v=StatesInternalOp vloc=0+0 uiop=Op d=NoDiskOp id=0 loc=0+0 node=none table=none',0)
    a('step=14 table=63@0+0:0,1,2,3,4,5,6,7 node=18446744073709551615:63 uiop=NoOp v=PopSyncOp',0)
    a('step=14 table=empty node=0: id=18446744073709551615',0)
    a('step=14 node=stored table=stored',0)
    a('step=14 node=cached table=frozen',0)
    a('step=18 table2=2105344+1/empty block=127:137363456+1048576/18446744073709551615: v=CrashOp block=1:5242880+1/7:63',0)
    l('show','phase=Unready allocated=0 cached=0 writes=0 reads=0','blocks=oo'+'.'*125+'o')
    l('audit','place=1056768+4096 '+OK)
    c(b'')
    c(b'Lines that are not of the form: numbers.')
    for s in [
        'step=','step=01','step=00','step=-1','step=+1','step=1x','step=0x1','step=18446744073709551616','step=28446744073709551615','step=99999999999999999999',
        'step=184467440737095516150','step=14 ref=','step=14 ref=007','step=14 id=18446744073709551616','step=14 loc=1','step=14 loc=1+','step=14 loc=+1',
        'step=14 loc=1+2+3','step=14 loc=1-2','step=14 loc=18446744073709551616+0','step=14 vloc=0+18446744073709551616'
    ]: e(s)
    c(b'Words.')
    for s in [
        'step','Step=14','step =14','step=14 step=14','step=14 foo=1','step=14 ref','step=14 =1','step=14 ref=1 ref=1','step=14 ref=1 id=1 ref=2',
        'step=14 node=none node=none','step=14 table=none table=none','step=14 REF=1','step=14 v=','step=14 v=FreezeOp2','step=14 v=Freeze','step=14 v=freezeop',
        'step=14 uiop=','step=14 uiop=noop','step=14 uiop=NoOp2','step=14 d=','step=14 d=ReqReadNode','step=14 v=NoDiskOp','step=14 d=CrashOp','step=14 device=0',
        'step=14 contents=0','audit 1','show all','audits','shows','aud','format','format device=0','format contents=0','format device=0 device=0 contents=0',
        'format device=0 contents=0 contents=0','format device=0 contents=0 ref=0','format device= contents=0','format device=0 contents=-1',
        'formats device=0 contents=0'
    ]: e(s)
    c(b'Spaces, tabs, carriage returns, bytes that are no text.')
    for s in [
        b' ',b'  ',b' step=14',b'step=14 ',b'step=14  ref=0',b'step=14\tref=0',b'step=14 ref=0\t',b'\tstep=14',b'step=14\r',b'\r',b'audit ',b' audit',b'show\r',
        b' # no comment',b'format  device=0 contents=0',b'format device=0 contents=0 ',b'\xff',b'step=14 ref=\xff',b'step=14 ref=\xd9\xa1',b'\xef\xbb\xbfstep=14',
        b'step=14\x00',b'\x00',b'step=14 ref=1\xa0'
    ]: e(s)
    c(b'In a comment any bytes may stand: \xff\xfe\x00\t\r \x80')
    c(b'Nodes and tables.')
    for s in [
        'node=','node=5','node=:','node=:1','node=05:','node=5:1,','node=5:,1','node=5:,','node=5:1,,2','node=5:01','node=5:256','node=5:18446744073709551616',
        'node=5:1:2','node=5:1;2','node=5:1 2','node=5:0,0,0,0,0,0,0,0,0','node=None','node=empty','node=frozen','node=nonex','table=','table=0','table=:',
        'table=64:','table=00:','table=0:;','table=;0:','table=0:;0:','table=1:;0:','table=0:;2:;1:','table=0@:','table=0@1:','table=0@1+:','table=@1+2:',
        'table=0@1+2','table=0@1+2@3+4:','table=0:1:2','table=0:1,','table=0:256','table=0:0,0,0,0,0,0,0,0,0','table=cached','table=Empty',
        'table=18446744073709551616:'
    ]: e('step=14 '+s)
    c(b'What a crash is offered.')
    for s in [
        'table1=','table1=empty','table1=stored','table1=0+1','table1=0+1/','table1=0+1/none','table1=0+1/stored','table1=0+1/frozen','table1=0/empty',
        'table1=/empty','table1=0+1/0','table1=0+1/64:','table1=none table1=none','table2=0+1/empty table2=none','table3=none','table0=none',
        'table1=0+1/empty/empty','block=','block=0','block=0:','block=:none','block=none','block=128:none','block=00:none','block=18446744073709551616:none',
        'block=0:0+1','block=0:0+1/','block=0:0+1/none','block=0:0+1/stored','block=0:0+1/cached','block=0:0+1/5','block=0:/5:','block=0:0/5:',
        'block=0:none block=0:none','block=0:none block=1:none block=0:0+1/5:','block=0:empty'
    ]: e('step=18 v=CrashOp '+s)
    for s in ['step=14 table1=none','step=17 table2=none','step=1 block=0:none','step=180 v=CrashOp table1=none','step=0 block=0:none']: e(s)
    c(b'A line has at most 4,096 bytes, a comment too.')
    P.append((b'#'+b'x'*4095,None))
    e(b'#'+b'x'*4096)
    e(b'#'+b'\xff'*9000)
    full=to(4096); assert len(full)==4096; a(full,0)
    over=to(4097); assert len(over)==4097; e(over)
    e(b'step=14 '+b'ref=0'*2000)
    a('step=18 v=CrashOp '+' '.join('block=%d:none'%k for k in range(2,127)),0)
    l('show','phase=Unready allocated=0 cached=0 writes=0 reads=0','blocks=oo'+'.'*125+'o')
    c(b'')

def place_words():
    c(b'The words of place come in either order. Both must be there, each once, and no other.')
    l('place loc=139264+1 device=0','answer=0 kind=table')
    for s in [
        'place','place ','place device=0','place loc=0+4096','place  device=0 loc=0+4096','place device=0 loc=0+4096 ','place device=0 loc=0+4096 loc=0+4096',
        'place device=0 device=0 loc=0+4096','place device=0 loc=0+4096 ref=0','place device=0 loc=0+4096 contents=0','place device=0 loc=0+4096 kind=node',
        'place device= loc=0+4096','place device=0 loc=','place device=0 loc=0','place device=0 loc=0+','place device=00 loc=0+4096',
        'place device=0 loc=0+18446744073709551616','place device=18446744073709551616 loc=0+4096','place device=0 vloc=0+4096','place=0 device=0 loc=0+4096',
        'places device=0 loc=0+4096','Place device=0 loc=0+4096','plac device=0 loc=0+4096','format device=0 contents=0 loc=0+4096'
    ]: e(s)
    c(b'Each key, on the lines that may not have it: a word of place, of format, of a crash and of another step.')
    KEYS=['ref=0','v=CrashOp','vloc=0+0','uiop=Op','d=NoDiskOp','id=0','loc=0+4096','node=none','table=none','table1=none','table2=none','block=127:none','device=0','contents=0']
    for i,k in enumerate(KEYS,1):
        if i not in (7,13): e('place device=0 loc=0+4096 '+k)
        if i not in (13,14): e('format device=0 contents=0 '+k)
        if i>12: e('step=18 v=CrashOp '+k)
        if i>9: e('step=14 '+k)
    c(b'The lines about places changed nothing, and were not counted as calls.')
    c(b'The sequence that they stand in goes on.')
    l('audit','place=1056768+4096 '+OK)
    c(b'')

def contents_words():
    c(b'High contents on each device; a high of 0; zeros; the largest numbers. A refused read shows zeros whatever the root has.')
    def root(s,shown,device=0,table=73728,block=262144):
        a('format device=%d contents=%s'%(device,s),0)
        l('step=17','answer=4 contents=0 succs=')
        a('step=10 v=SendPersistentLocOp vloc=%d+4096'%table,0)
        a('step=8 d=ReqReadIndirectionTableOp id=1 loc=%d+4096'%table,0)
        a('step=9 d=RespReadIndirectionTableOp id=1 table=stored',0)
        a('step=6 d=ReqReadNodeOp id=7 loc=%d+4096'%block,0)
        a('step=7 d=RespReadNodeOp id=7 node=%s:'%s,0)
        l('step=17','answer=0 contents=%s succs= picture=same'%shown)
    root('5.12','5.12',1,270336,917504)
    root('5.12','5.12',2,1056768,4194304)
    for s,shown in [('0.5','5'),('0.0','0'),(M+'.'+M,M+'.'+M),('1.0','1.0'),('0.'+M,M),(M+'.0',M+'.0')]: root(s,shown)
    a('format contents=3.4 device=0',0)
    a('format contents=3.4 device=3',1)
    a('step=14 node=3.4:1,2',0)
    a('step=14 node=3.4:64',1)
    c(b'What a crash may leave in an empty block, and it is there afterwards.')
    a('step=18 v=CrashOp block=9:851968+1/3.4:1,2',0)
    a('step=18 v=CrashOp block=9:851968+1/4:1,2',19)
    a('step=18 v=CrashOp block=9:851968+1/4.3:1,2',19)
    a('step=18 v=CrashOp block=9:851968+1/3.4:2,1',19)
    a('step=18 v=CrashOp block=9:851968+1/3.4:1,64',1)
    a('step=18 v=CrashOp block=9:851968+1/3.4:1,2',0)
    c(b'Contents that are not of the form.')
    for s in [
        '','.','5.','.5','0.','.0','..','5.12:','5..12','.5.12','5.12.','5.12.1','05.12','5.012','00.12','0.00','5.+12','+5.12','5.-12','5.x','x.12','5.12x','5,12',
        '18446744073709551616.0','0.18446744073709551616','1.18446744073709551616',M+'0.1'
    ]:
        e('format device=0 contents='+s)
        e('step=14 node=%s:'%s)
        e('step=18 v=CrashOp block=9:851968+1/%s:'%s)
    c(b'No other number has two parts.')
    for s in [
        'step=0.14','step=14 ref=0.1','step=14 id=0.1','step=14 loc=0.1+0','step=14 loc=0+0.1','step=14 vloc=0.1+0','step=14 vloc=0+0.1','step=14 node=5:0.1',
        'step=14 node=5.12','step=14 table=0.0:','step=14 table=0@0.1+0:','step=14 table=0:0.1',
        'format device=0.0 contents=0','place device=0.0 loc=0+4096','place device=0 loc=0.0+4096','step=18 v=CrashOp block=0.9:851968+1/3.4:','step=18 v=CrashOp block=9:851968.0+1/3.4:',
        'step=18 v=CrashOp table1=73728.0+1/empty','step=18 v=CrashOp table1=73728+1/0.0:'
    ]: e(s)
    c(b'')
