# Writes the year's script of crates/cases from the model of the rules beside it: python3 tests/year/year.py > crates/cases/src/year.rt (then rt fmt)
from model import *
random.seed(7)
b=Book(2026,1)
b.open(0,1,1,0); b.open(1,1,1,900); b.open(2,2,1,30000); b.open(7,2,2,60000); b.open(9,1,2,45000); b.open(63,1,1,0)
base={0:1000,1:300,2:1000,7:2000,9:1500,63:40}
shown=0; scripts=[]
for n in range(12):
    if n==4: b.fold(63,0)
    if n==8: b.open(20,1,2,45000); base[20]=10
    for a in sorted(b.p):
        u=base[a]
        for d in range(random.randint(2,4)):
            b.post(a,random.choice((0,0,1)),max(0,u+random.randint(-u//4,u//3)),u+random.randint(-u//10,u//10))
        b.rest(a,0,u+random.randint(-u//40,u//30),u)
    if n%3==1: b.adjust(0,random.randint(-500,500))
    if n>0:
        opened=[a for a in sorted(b.p) if not b.p[a].settled]
        for a in (2,7):
            if a in opened: b.state(a,random.randint(-4000,4000))
        b.trade(7,1,0,1,random.randint(1,3000)); 
        if n%2: b.trade(0,1,7,2,random.randint(1,900))
        b.trade(2,2,9,1,random.randint(1,200))
        for a in opened:
            c=0
            if b.p[a].k==2:
                j=b.p[a].C+b.p[a].O
                if abs(j-trunc12(j))<5000 and n%4==3: c=1
            b.settle(a,c)
    b.close(); b.look()
    for i,x in list(enumerate(b.bills))[shown:]:
        b.line("bill %d = %s"%(i," ".join(map(str,x))))
    shown=len(b.bills)
    if n==8: b.fold(20,9)
lines=b.out
cut=lines.index("month = 2026 7")+1
while lines[cut].startswith(("page","gas","bill")): cut+=1
print("// A year of months with folds and trades, written by the model of the rules in tests/year.\n")
print("/// January to June 2026.\npub(crate) const FIRST_HALF: &str = \"%s\n\";\n" % "\n".join(lines[:cut]))
print("/// July to December 2026.\npub(crate) const SECOND_HALF: &str = \"%s\n\";" % "\n".join(lines[cut:]))
