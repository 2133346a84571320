/** Operations whose constants have a body each. */
public class Main {
    enum Operation {
        PLUS("+") {
            int apply(int left, int right) {
                return left + right;
            }
        },
        MINUS("-") {
            int apply(int left, int right) {
                return left - right;
            }
        },
        TIMES("*") {
            int apply(int left, int right) {
                return left * right;
            }
        },
        OVER("/") {
            int apply(int left, int right) {
                return left / right;
            }
        };

        private final String sign;

        Operation(String sign) {
            this.sign = sign;
        }

        abstract int apply(int left, int right);

        @Override
        public String toString() {
            return sign;
        }
    }

    public static void main(String[] args) {
        for (Operation operation : Operation.values()) {
            System.out.println("12 " + operation + " 4 = " + operation.apply(12, 4) + " (" + operation.name() + ")");
        }
        try {
            Operation.valueOf("OVER").apply(1, 0);
        } catch (ArithmeticException e) {
            System.out.println("by zero");
        }
        System.out.println(Operation.valueOf("TIMES") == Operation.TIMES);
    }
}
