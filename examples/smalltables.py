# smalltables.py: what document 02 says that the program smalltables prints. It tries every allocated set and every three lists, in
# 02's order, and keeps those that 02 allows. From the top: python3 examples/smalltables.py > crates/smalltables/stdout
FIRST,SIZE=262144,65536  # device 0: its first node address, and how long a block is

def members(s): return [r for r in range(3) if s>>r&1]
def subset(a,b): return not a&~b
def entry(r,l): return '%d@%d+4096:%s'%(r,FIRST+r*SIZE,','.join(map(str,members(l))))

tables=[]
for used in range(8):
    for lists in ((a,b,c) for a in range(8) for b in range(8) for c in range(8)):
        if used&1 and all(subset(l,used) if used>>r&1 else l==0 for r,l in enumerate(lists)):
            tables.append(';'.join(entry(r,lists[r]) for r in members(used)))
for k,t in enumerate(tables): print('number=%d table=%s'%(k,t))
for d in range(3): print('device=%d tables=%d accepted=%d'%(d,len(tables),len(tables)))
