# Writes crates/history/proofs/Example.antt: a history with a lost, a repeated and a reordered frame, refused calls among them, and a closing round; and
# document 01's short run. Then `rt fmt`.
import sys
def lst(xs): return ' ∷ '.join([str(x) for x in xs]+['[]'])
def rec(g,o,r): return 'record { generation = %d; outbound = %d; remote = %d }'%(g,o,r)
def msg(n,b): return 'record { number = %d; body = %s }'%(n,lst(b))
def frame(n,k,b): return 'record { number = %d; kind = %d; body = %s }'%(n,k,lst(b))
def at(p,x='refl'): return ('inr ('*p)+'inl '+x+(')'*p)
out=[]
w=out.append
UN='unfolding rules numbered_by is_command'
B1=[7,8,9]; B2=[5]; X=[4]
m1=msg(1,B1); m2=msg(2,B2)
FIT=lambda n,p=128:'(le_by_compare %d %d tt, tt)'%(n,p)
H=[
('left','true','sends (%s)'%lst(B1),'tt',FIT(3),''),
('left','true','sends (%s)'%lst(B2),'tt',FIT(1),''),
('left','false','sends (%s)'%lst(B2),'tt','tt','refused by 1'),
('left','true','prepares','tt','tt',''),
('left','true','completes (%s) true'%rec(2,2,0),'(0, %s)'%at(0),'tt','lists data 1, which is lost, and 2'),
('right','true','gets_data up (%s)'%frame(2,0,B2),at(1),'tt','2 comes before 1'),
('right','true','gets_data down (%s)'%frame(2,1,B2),at(1),'tt','2 comes again, the host being unavailable, of another kind'),
('right','true','gets_data up (%s)'%frame(2,3,B2),at(1),'tt','refused by 2'),
('right','true','sends (%s)'%lst(X),'tt',FIT(1),''),
('right','true','commands false (some (record { id = 1; body = %s }))'%lst([6,6]),'tt',FIT(2),'gives its body number 2'),
('left','true','fetches 1','tt','tt',''),
]
n0=len(H)
R=[
('left','true','prepares','tt','tt','the closing round'),
('right','true','prepares','tt','tt',None),
('right','true','completes (%s) false'%rec(2,2,0),'(0, %s)'%at(0),'tt',None),
('left','true','completes (%s) true'%rec(2,2,0),'(0, %s)'%at(1),'tt',None),
('left','true','connects 5 nan true','tt','tt',None),
('left','true','reports 0 2 true',at(1),'tt',None),
('right','false','gets_data up (%s)'%frame(1,0,B1),at(0),'tt','skipped'),
('right','true','gets_data up (%s)'%frame(1,0,B1),at(0),'tt',None),
('left','true','reports 0 1 true',at(0),'tt',None),
('right','true','gets_data up (%s)'%frame(2,2,B2),at(1),'tt',None),
('right','true','reports 0 1 true',at(0),'tt','told'),
('right','true','prepares','tt','tt',None),
('right','true','completes (%s) true'%rec(4,2,2),'(2, %s)'%at(1),'tt',None),
('left','true','gets_ack 2',at(1),'tt',None),
('left','true','gets_ack 1',at(0),'tt',None),
]
ALL=H+R
N=len(ALL)
BS=[0xaa,0xbb,0xcc]
S=[
('left','true','sends (%s)'%lst(BS),'tt',FIT(3,4096),'S aabbcc'),
('left','true','prepares','tt','tt','P'),
('left','true','completes (%s) true'%rec(1,1,0),'(0, %s)'%at(0),'tt','C 1'),
('right','true','gets_data up (%s)'%frame(1,0,BS),at(0),'tt',None),
('right','true','prepares','tt','tt',None),
('right','true','completes (%s) true'%rec(1,0,1),'(1, %s)'%at(0),'tt',None),
('left','true','gets_ack 1',at(0),'tt','A 1'),
('left','true','reports 0 1 true',at(0),'tt','R 1 1'),
('left','true','gets_ack 1',at(0),'tt','A 1'),
]
w('''-- A history with a lost, a repeated and a reordered frame and with refused calls, and a closing round of its left end; and document 01's short run,
-- whose acks the other end lists. Both are legal, each call's result meets its contract, and the theorem says of them what it says. Made by
-- tests/history/example.py. Assumes nothing.
use mathlib.Core.Path.{◌≡◌, refl, ap, subst}
use mathlib.Core.Bool.{true, false}
use mathlib.Core.Logic.{inl, inr}
use mathlib.Core.List.{[], ◌∷◌}
use mathlib.Core.Option.{some}
use Prim.Native.Nat.{ℕ, ◌≤◌}
use native.Mathlib.Omega.{arith}
use native.Mathlib.Bridge.{le_by_compare, IsLe}
use lib.ListN.{length, replicate, length-replicate}
use lib.Ieee.{nan}
use Rattle.rules.specs.declared.HostStatus.{HostStatus}
use Rattle.rules.specs.declared.Policy.{Policy}
use Rattle.rules.specs.declared.Answer.TheVariants.{Number, Prepared, Done, Flag}
use Rattle.rules.specs.Open.{rules}
use Rattle.rules.specs.Events.{words}
use Rattle.rules.specs.Start.{policy_of, start, started}
use Rattle.rules.specs.Sound.{sound}
use Rattle.rules.specs.Calls.{sends, gets_data, gets_ack, commands, prepares, completes, connects, reports, fetches}
use Rattle.rules.specs.Lists.{◌⊕◌}
use Rattle.history.specs.Shown.{numbered_by, is_command}
use Rattle.history.specs.Promises.{Session, shown_by, Opening, Starts}
use Rattle.history.specs.Histories.{left, right, History, opening, turn, trace, Legal}
use Rattle.history.specs.Round
use Rattle.history.specs.Round.{Round, not_yet, ready_with, finished, committing, replaying, receipting, acking}
use Rattle.history.specs.Demand.{Faithful, Closed}
use Rattle.history.proofs.Meets.{first_record, opened, startable, startable_starts}
use Rattle.history.proofs.Played
use Rattle.history.proofs.Played.{room, buffers, Script, begins, calls, Fine, Plays, left_by, answers, datas_are, acks_are, counting, not_counting, plays, plays_first}
use Rattle.history.proofs.Demand3.{demand3}

abbrev opens_with : Policy → Opening
opens_with p = record { policy = p; disposition = 0; reject = 1 ∷ []; outbound = replicate 65536 0; queue = replicate 32768 0 }

-- link classes 0 and 2
abbrev narrow : Policy
narrow = policy_of 8 8 1024 128

abbrev wide : Policy
wide = policy_of 256 256 32768 4096

record Opens (p : Policy) : Type 0 where
  starts : start (first_record 0) p (1 ∷ []) ≡ started (opened (opens_with p)).state
  settled : sound (opened (opens_with p)).state ≡ true

narrow_sound : Opens narrow
unfolding rules
narrow_sound = record { starts = refl; settled = refl }

wide_sound : Opens wide
unfolding rules
wide_sound = record { starts = refl; settled = refl }

many_zeros : (n : ℕ) → n ≤ length {A = ℕ} (replicate n 0)
many_zeros n = omega (arith, length-replicate {A = ℕ} n 0)

first_of : (p : Policy) → Opens p → Session
first_of p o = startable (opens_with p) (many_zeros 65536) (many_zeros 32768) o.starts o.settled

first-starts : (p : Policy) (o : Opens p) → Starts (opens_with p) (first_of p o)
unfolding first_of
first-starts p o = startable_starts (opens_with p) (many_zeros 65536) (many_zeros 32768) o.starts o.settled

abbrev up : HostStatus
up = record { available = true; established = false; discarding = false }

abbrev down : HostStatus
down = record { available = false; established = true; discarding = true }

-- ---- the history, and the round after it: true lends enough room, false lends nothing
''')
def script0(pre,p,calls):
    op='(opens_with %s)'%p
    w('abbrev %sk0 : Script\n%sk0 = begins %s %s\n'%(pre,pre,op,op))
    w('abbrev %sh0 : History\n%sh0 = opening %s %s (first_of %s %s_sound) (first_of %s %s_sound)\n'%(pre,pre,op,op,p,p,p,p))
    w('%sp0 : Plays %sk0 %sh0\n%sp0 = plays_first %s %s (first_of %s %s_sound) (first_of %s %s_sound) (first-starts %s %s_sound) (first-starts %s %s_sound)\n'%((pre,)*4+(op,op)+(p,)*8))
    for i,(e,l,c,co,fi,cm) in enumerate(calls,1):
        if cm and cm not in ('skipped','told'): w('-- %s'%cm)
        w('abbrev %sk%d : Script\n%sk%d = calls %sk%d %s %s (%s)\n'%(pre,i,pre,i,pre,i-1,e,l,c))
        w('abbrev %sh%d : History\n%sh%d = turn %sh%d %s (buffers %s) (%s) (left_by %sk%d %sh%d %sp%d %s %s (%s))\n'%(pre,i,pre,i,pre,i-1,e,l,c,pre,i-1,pre,i-1,pre,i-1,e,l,c))
        un=UN+(' IsLe' if 'le_by' in fi else '')
        w('%sf%d : Fine %sk%d %s %s (%s)\n%s\n%sf%d = record { comes = %s; stays = refl; fits = %s; no_restore = refl }\n'%(pre,i,pre,i-1,e,l,c,un,pre,i,co,fi))
        w('%sp%d : Plays %sk%d %sh%d\n%sp%d = plays %sk%d %sh%d %sp%d %s %s (%s) %sf%d\n'%(pre,i,pre,i,pre,i,pre,i,pre,i-1,pre,i-1,pre,i-1,e,l,c,pre,i))
script0('','narrow',ALL)
w('legal_history : Legal h%d\nlegal_history = p%d.legal\n'%(n0,n0))
w('legal_round : Legal h%d\nlegal_round = p%d.legal\n'%(N,N))
w('-- ---- the closing round\n')
k=n0
C=lambda a,b:'committing %s %s'%(a,b)
rw=lambda x:'(ready_with (%s))'%x
both='(%s ∷ %s ∷ [])'%(m1,m2)
one1='(%s ∷ [])'%m1
one2='(%s ∷ [])'%m2
cl=rec(2,2,0); cr=rec(2,2,0); c2=rec(4,2,2)
def args(j): e,l,c=R[j-1][:3]; i=k+j-1; return 'k%d h%d p%d %s %s (%s) f%d'%(i,i,i,e,l,c,k+j)
def ans(j): return '(answers %s)'%args(j)
def cnt(j): return '(counting %s refl)'%args(j)
def unc(j): return '(not_counting %s refl)'%args(j)
def by(what,j,st,t): return 'subst (λ z. Round left h%d (%s) h%d) (%s %s) (%s)'%(k,st,k+j,what,args(j),t)
steps=[
 (0,'committing not_yet not_yet','Round.opens'),
 (1,C(rw(cl),'not_yet'),'Round.sender_prepared room %s r0'%ans(1)),
 (2,C(rw(cl),rw(cr)),'Round.receiver_prepared room %s r1'%ans(2)),
 (3,C(rw(cl),'finished'),'Round.receiver_completed room false %s r2'%cnt(3)),
 (4,C('finished','finished'),'Round.sender_completed room true %s r3'%cnt(4)),
 (5,'replaying %s %s []'%(both,both),by('datas_are',5,'replaying z z []','Round.replayed room 5 nan (inr refl) %s r4'%cnt(5))),
 (6,'replaying %s %s []'%(both,one1),'Round.reported room %s (%s) [] %s r5'%(one1,m2,cnt(6))),
 (7,'replaying %s %s []'%(both,one1),'Round.skipped right (buffers false) (%s) %s r6'%(R[6][2],unc(7))),
 (8,'replaying %s %s []'%(one2,one1),by('acks_are',8,'replaying %s %s ([] ⊕ z)'%(one2,one1),'Round.arrived room up (%s) 0 refl %s r7'%(m1,cnt(8)))),
 (9,'replaying %s [] []'%one2,'Round.reported room [] (%s) [] %s r8'%(m1,cnt(9))),
 (10,'replaying [] [] []',by('acks_are',10,'replaying [] [] ([] ⊕ z)','Round.arrived room up (%s) 2 refl %s r9'%(m2,cnt(10)))),
 (11,'replaying [] [] []','Round.told right room 0 1 %s r10'%cnt(11)),
 (12,'receipting (%s) []'%c2,'Round.receipt_prepared room %s r11'%ans(12)),
 (13,'acking (1 ∷ 2 ∷ [])',by('acks_are',13,'acking ([] ⊕ z)','Round.receipt_completed room true %s r12'%cnt(13))),
 (14,'acking (1 ∷ [])','Round.acknowledged room (1 ∷ []) 2 [] %s r13'%cnt(14)),
 (15,'acking []','Round.acknowledged room [] 1 [] %s r14'%cnt(15)),
]
for j,st,t in steps:
    w('r%d : Round left h%d (%s) h%d\n%s\nr%d = %s\n'%(j,k,st,k+j,UN,j,t))
w('''-- ---- the theorem at them

faithful : Faithful h%d left
faithful = demand3.always h%d legal_history left

closed : Closed h%d left
closed = demand3.finally h%d left h%d r%d legal_round

-- and by computation: nothing was handed over before the round, and both messages after it; right had given two bodies numbers
before_the_round : (trace h%d right).handed ≡ []
%s
before_the_round = ap (λ τ. τ.handed) (p%d.traces right)

after_the_round : (trace h%d right).handed ≡ %s
%s
after_the_round = ap (λ τ. τ.handed) (p%d.traces right)

bodies-given : (trace h%d right).bodies ≡ (%s) ∷ (%s) ∷ []
%s
bodies-given = ap (λ τ. τ.bodies) (p%d.traces right)
'''%(n0,n0,N,n0,N,len(R),n0,UN,n0,N,both,UN,N,N,lst(X),lst([6,6]),UN,N))
w('''-- ---- "A short run": the left end's calls are S aabbcc, P, C 1, A 1, R 1 1, A 1. Between them the right end gets the message and commits, which lists
-- the ack
''')
script0('s','wide',S)
w('legal_run : Legal sh9\nlegal_run = sp9.legal\n')
w('faithful_run : Faithful sh9 left\nfaithful_run = demand3.always sh9 legal_run left\n')
lines=[('run-send','S 1 1',1,'Number 1',[(1,0,0,0)]),('run_prepare','P 1 1 0',2,'Prepared (%s)'%rec(1,1,0),[]),('run-complete','C 0 2',3,'Done',[(8,1,0,3),(6,0,0,0)]),('run_ack','A 0 1',7,'Flag true',[(3,1,0,0)]),('run-report','R 0 0',8,'Done',[]),('run_ack_again','A 0 2',9,'Flag true',[(1,0,0,0),(3,1,0,0)])]
w('-- document 01\'s output, line by line\n')
for n,cm,i,a,evs in lines:
    e,l,c=S[i-1][:3]
    arg='sk%d sh%d sp%d %s %s (%s) sf%d'%(i-1,i-1,i-1,e,l,c,i)
    ws=' ∷ '.join(['words %d %d %d %d'%v for v in evs]+['[]'])
    z='left_by sk%d sh%d sp%d %s %s (%s)'%(i-1,i-1,i-1,e,l,c)
    w('-- %s\n%s : ((%s).answer ≡ %s) × ((shown_by (%s)).events ≡ %s)\n%s\n%s = (answers %s, Played.words %s)\n'%(cm,n,z,a,z,ws,UN,n,arg,arg))
open(sys.argv[1],'w').write('\n'.join(out))
