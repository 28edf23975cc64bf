# The rules of the book, read once more in Python, to write a script of a year for crates/cases.
import random
PR=dict(one_over=1255000,one_under=4000000,two_over=1,two_under=1500000000); NONC=1000000; CRED=5000
def hold(b,s): return max(-b,min(b,s))
def trunc12(x): return (abs(x)//12)*(1 if x>=0 else -1)
class P:
    def __init__(s,k,e,d): s.k,s.e,s.d=k,e,d; s.R=s.S=s.O=s.C=s.K=0; s.settled=1; s.day=0; s.u=0; s.dx=s.ax=0; s.su=s.sd=0
class Book:
    def __init__(b,y,m): b.y,b.m=y,m; b.p={}; b.out=[]; b.bills=[]; b.offers=[]
    def days(b): 
        import calendar; return calendar.monthrange(b.y,b.m)[1]
    def line(b,s): b.out.append(s)
    def open(b,a,k,e,d): b.p[a]=P(k,e,d); b.line(f"open {a} {k} {e} {d} = done")
    def post1(b,a,f,r,u):
        p=b.p[a]; p.day+=1; p.R+=r-u; p.u+=u
        if p.e==2:
            p.dx+=0 if f else max(0,abs(r-u)-u//10); p.ax+=max(0,abs(p.R)-p.d//100)
    def post(b,a,f,r,u): b.post1(a,f,r,u); b.line(f"post {a} {b.p[a].day} {f} {r} {u} = done")
    def rest(b,a,f,r,u):
        b.line(f"days {a} {f} {r} {u} = done")
        while b.p[a].day<b.days(): b.post1(a,f,r,u)
    def adjust(b,a,q): b.p[a].R+=q; b.line(f"adjust {a} {q} = done")
    def state(b,a,q): b.p[a].O+=q; b.line(f"state {a} {q} = done")
    def trade(b,g,gc,t,tc,q):
        k=len(b.offers); b.offers.append(1); b.line(f"offer {g} {gc} {t} {tc} {q} = place {k}")
        for a,c,z in ((g,gc,-q),(t,tc,q)):
            if c==1: b.p[a].S+=z
            else: b.p[a].O+=z
        b.line(f"accept {t} {k} = done")
    def fold(b,m,a):
        p,q=b.p.pop(m),b.p[a]
        for n in "R S O C K d u dx ax su sd".split(): setattr(q,n,getattr(q,n)+getattr(p,n))
        q.settled=q.settled and p.settled; b.line(f"fold {m} {a} = done"); b.line(f"page {m} = refused 2 1 {m}")
    def split(b,p):
        S=p.S
        if p.e==1:
            k=hold(p.su*5//100,S); w=hold(p.su//10,S); return k,w-k,S-w
        k=hold(p.sd//100,S); return k,0,S-k
    def bill(b,a,y,m,kind,q,price):
        if q==0: return
        x=q*price*(1 if kind in(3,4) else -1); c=(abs(x)+5000)//10000*(1 if x>=0 else -1)
        b.bills.append((a,y,m,kind,q,price,c))
    def prev(b): return (b.y,b.m-1) if b.m>1 else (b.y-1,12)
    def settle(b,a,c):
        p=b.p[a]; j=p.C+p.O; t=trunc12(j); rest=j-t
        if c: assert abs(rest)<5000; p.K+=j; p.C=0
        else: p.K+=t; p.C=rest
        k,o,w=b.split(p); p.K+=k; y,m=b.prev()
        b.bill(a,y,m,1,o,PR['one_over'] if o>=0 else PR['one_under']); b.bill(a,y,m,2,w,PR['two_over'] if w>=0 else PR['two_under'])
        p.S=p.O=p.su=p.sd=0; p.settled=1; b.line(f"settle {a} {c} = done")
    def close(b):
        for a in sorted(b.p):
            p=b.p[a]; b.bill(a,b.y,b.m,3,p.dx,NONC); b.bill(a,b.y,b.m,4,p.ax,NONC); b.bill(a,b.y,b.m,5,p.u if p.e==2 else 0,CRED)
        for p in b.p.values():
            assert p.settled and p.day==b.days()
            p.S=p.R; p.R=p.K; p.K=0; p.su,p.sd=p.u,p.d; p.u=p.day=p.dx=p.ax=0; p.settled=0
        b.offers=[]; b.m+=1
        if b.m>12: b.m=1; b.y+=1
        b.line("close = done"); b.line(f"month = {b.y} {b.m}")
    def look(b):
        for a in sorted(b.p):
            p=b.p[a]; b.line(f"page {a} = {p.R} {p.S} {p.O} {p.C} {p.K} {int(p.settled)} {p.day} {p.u} {p.d} {p.dx} {p.ax} {p.su} {p.sd}")
        b.line(f"gas = {sum(p.R+p.S+p.O+p.C+p.K for p in b.p.values())}")
        b.line(f"bills {len(b.bills)} = written")
