/** Tries again what fails by a checked exception. */
public class Main {
    static class TryAgain extends Exception {
        final int left;

        TryAgain(int left) {
            super(left + " left");
            this.left = left;
        }
    }

    static class GivenUp extends RuntimeException {
        GivenUp(Exception cause) {
            super(cause);
        }
    }

    interface Job {
        String run(int attempt) throws TryAgain;
    }

    static String persist(Job job, int most) {
        for (int attempt = 1; ; attempt++) {
            try {
                return job.run(attempt);
            } catch (TryAgain e) {
                System.out.println("attempt " + attempt + ": " + e.getMessage());
                if (attempt == most) {
                    throw new GivenUp(e);
                }
            }
        }
    }

    static Job after(final int fails) {
        return new Job() {
            public String run(int attempt) throws TryAgain {
                if (attempt <= fails) {
                    throw new TryAgain(fails - attempt);
                }
                return "done at " + attempt;
            }
        };
    }

    public static void main(String[] args) {
        System.out.println(persist(after(0), 3));
        System.out.println(persist(after(2), 3));
        try {
            persist(after(9), 3);
        } catch (GivenUp e) {
            System.out.println(e.getCause().getMessage() + ", " + (e.getCause() instanceof TryAgain));
        }
    }
}
