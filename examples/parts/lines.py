# The pairs, (line, what documents 01 and 02 and docs/REPLAY.md say it prints), None where nothing is printed; and how a part writes them.
P=[]
def c(s): P.append((b'# '+s if s else b'',None))
def l(s,*out): P.append((s if isinstance(s,bytes) else s.encode(),out))
def a(s,n): l(s,'answer=%d'%n)
def e(s): l(s,'error')
OK='lost=0 added=0 altered=0'
M='18446744073709551615'
AREA1,AREA2='73728+4096','139264+4096'
def block(k): return '%d+4096'%(262144+65536*k)
def dots(s): return 'blocks='+s+'.'*(128-len(s))
def start(area):
    a('step=10 v=SendPersistentLocOp vloc='+area,0)
    a('step=8 d=ReqReadIndirectionTableOp id=1 loc='+area,0)
    a('step=9 d=RespReadIndirectionTableOp id=1 table=stored',0)
def p(device,place,kind,answer=0): l('place device=%d loc=%s'%(device,place),'answer=%d kind=%s'%(answer,kind))

# an example: its first line, and a script of which each line has a comment above it
def x(comment,s,*out):
    P.append((b'# '+comment.encode(),None)); l(s,*out)
def xa(comment,s,n): x(comment,s,'answer=%d'%n)
EX={}
def example(name,head,f):
    c(('examples/%s.replay'%name).encode())
    n=len(P); f(); EX[name]=(head,n,len(P)); c(b'')
