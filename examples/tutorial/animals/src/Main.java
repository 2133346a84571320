import java.util.ArrayList;
import java.util.List;

/** Animals: abstract classes, overriding and calls of super. */
public class Main {
    abstract static class Animal {
        protected final String name;

        Animal(String name) {
            this.name = name;
        }

        abstract String sound();

        String describe() {
            return name + " says " + sound();
        }

        @Override
        public String toString() {
            return describe() + ".";
        }
    }

    static class Dog extends Animal {
        Dog(String name) {
            super(name);
        }

        String sound() {
            return "woof";
        }
    }

    static class Puppy extends Dog {
        Puppy(String name) {
            super("little " + name);
        }

        @Override
        String sound() {
            return super.sound() + "-" + super.sound();
        }

        @Override
        String describe() {
            return super.describe() + " and wags its tail";
        }
    }

    static class Cat extends Animal {
        private int lives = 9;

        Cat(String name) {
            super(name);
        }

        String sound() {
            return --lives > 7 ? "meow" : "hiss";
        }
    }

    public static void main(String[] args) {
        List<Animal> animals = new ArrayList<Animal>();
        animals.add(new Dog("Rex"));
        animals.add(new Cat("Tom"));
        animals.add(new Puppy("Rex"));
        for (Animal animal : animals) {
            System.out.println(animal);
        }
        System.out.println(animals);
        System.out.println(animals.get(2) instanceof Dog ? "a dog" : "no dog");
    }
}
