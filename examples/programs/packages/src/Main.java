import p.A;
import p.C;
import p.P;
import p.S;
import p.T;
import q.B;
import q.D;
import q.Q;
import q.U;

public class Main {
    static void say(String what, String found) {
        System.out.print(what);
        System.out.print(' ');
        System.out.println(found);
    }

    public static void main(String[] args) {
        say("A.m of an A", A.call(new A()));
        say("A.m of a B", A.call(new B()));
        say("B.m of a B", B.callB(new B()));
        say("A.m of a C", A.call(new C()));
        say("B.m of a C", B.callB(new C()));
        say("A.m of a D", A.call(new D()));
        say("A.m of a P", A.call(new P()));
        say("A.m of a Q", A.call(new Q()));
        say("S.t of a T", S.callS(new T()));
        say("S.t of a U", S.callS(new U()));
        say("U.t of a U", U.callU(new U()));
    }
}
