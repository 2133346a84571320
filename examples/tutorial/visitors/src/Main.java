/** Expressions as a tree, and visitors of it with a result of any type. */
public class Main {
    interface Visitor<R> {
        R number(int value);

        R sum(Expression left, Expression right);

        R product(Expression left, Expression right);
    }

    interface Expression {
        <R> R accept(Visitor<R> visitor);
    }

    static Expression number(final int value) {
        return new Expression() {
            public <R> R accept(Visitor<R> visitor) {
                return visitor.number(value);
            }
        };
    }

    static Expression sum(final Expression left, final Expression right) {
        return new Expression() {
            public <R> R accept(Visitor<R> visitor) {
                return visitor.sum(left, right);
            }
        };
    }

    static Expression product(final Expression left, final Expression right) {
        return new Expression() {
            public <R> R accept(Visitor<R> visitor) {
                return visitor.product(left, right);
            }
        };
    }

    static class Value implements Visitor<Integer> {
        public Integer number(int value) {
            return value;
        }

        public Integer sum(Expression left, Expression right) {
            return left.accept(this) + right.accept(this);
        }

        public Integer product(Expression left, Expression right) {
            return left.accept(this) * right.accept(this);
        }
    }

    static class Text implements Visitor<String> {
        public String number(int value) {
            return Integer.toString(value);
        }

        public String sum(Expression left, Expression right) {
            return "(" + left.accept(this) + " + " + right.accept(this) + ")";
        }

        public String product(Expression left, Expression right) {
            return left.accept(this) + " * " + right.accept(this);
        }
    }

    public static void main(String[] args) {
        Expression tree = product(sum(number(2), number(3)), sum(number(4), product(number(5), number(6))));
        System.out.println(tree.accept(new Text()) + " = " + tree.accept(new Value()));
    }
}
