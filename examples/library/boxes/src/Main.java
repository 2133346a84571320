/** Each method of the boxes and of Math, with ordinary and edge arguments. */
public class Main {
    static final int[] INTS = {0, 1, -1, 7, 10, -128, 127, 128, -129, 255, 65535, 1 << 30, Integer.MAX_VALUE, Integer.MIN_VALUE, 0x12345678};
    static final long[] LONGS = {0, 1, -1, 127, 128, 1L << 31, 1L << 32, -(1L << 40), Long.MAX_VALUE, Long.MIN_VALUE, 0x123456789abcdefL};
    static final String[] TEXTS = {
        "0", "-0", "+7", "127", "-128", "128", "32767", "-32769", "2147483647", "2147483648", "-2147483648", "-2147483649", "9223372036854775807",
        "9223372036854775808", "-9223372036854775808", "", "-", "+", "12a", " 1", "1 ", "0x10", "#ff", "-0X7f", "010", "+#1", "--1", "0x", "0x-1", "zz", "1_0",
    };

    static void show(String what, Object value) {
        System.out.println(what + " = " + (value == null ? "null" : value.toString()));
    }

    static void show(String what, long value) {
        System.out.println(what + " = " + value);
    }

    static void show(String what, boolean value) {
        System.out.println(what + " = " + value);
    }

    static void ints() {
        for (int i = 0; i < INTS.length; i++) {
            int x = INTS[i];
            String name = "int " + x + " ";
            Integer box = Integer.valueOf(x);
            show(name + "toString", box);
            show(name + "hex", Integer.toHexString(x));
            show(name + "octal", Integer.toOctalString(x));
            show(name + "binary", Integer.toBinaryString(x));
            show(name + "radix 3", Integer.toString(x, 3));
            show(name + "radix 36", Integer.toString(x, 36));
            show(name + "radix 99", Integer.toString(x, 99));
            show(name + "bits", Integer.bitCount(x));
            show(name + "leading", Integer.numberOfLeadingZeros(x));
            show(name + "trailing", Integer.numberOfTrailingZeros(x));
            show(name + "highest", Integer.highestOneBit(x));
            show(name + "lowest", Integer.lowestOneBit(x));
            show(name + "left", Integer.rotateLeft(x, 5));
            show(name + "right", Integer.rotateRight(x, 35));
            show(name + "reverse", Integer.reverse(x));
            show(name + "bytes", Integer.reverseBytes(x));
            show(name + "signum", Integer.signum(x));
            show(name + "unsigned", Integer.toUnsignedString(x));
            show(name + "unsigned / 7", Integer.divideUnsigned(x, 7));
            show(name + "unsigned % 7", Integer.remainderUnsigned(x, 7));
            show(name + "hash", box.hashCode());
            show(name + "byte", box.byteValue());
            show(name + "short", box.shortValue());
            show(name + "long", box.longValue());
            show(name + "same", Integer.valueOf(x) == Integer.valueOf(x));
            show(name + "equals Long", box.equals(Long.valueOf(x)));
            show(name + "equals new", box.equals(new Integer(x)));
            show(name + "abs", Math.abs(x));
            for (int j = 0; j < INTS.length; j++) {
                int y = INTS[j];
                show(name + "compare " + y, Integer.compare(x, y) + 10 * box.compareTo(Integer.valueOf(y)));
                show(name + "unsigned " + y, Integer.compareUnsigned(x, y));
                show(name + "max min " + y, Math.max(x, y) - 3L * Math.min(x, y));
                exact(x, y);
            }
        }
    }

    static void exact(int x, int y) {
        long found = 0;
        try {
            found += Math.addExact(x, y);
        } catch (ArithmeticException e) {
            found += e.getMessage().hashCode();
        }
        try {
            found += 3L * Math.subtractExact(x, y);
        } catch (ArithmeticException e) {
            found += 5;
        }
        try {
            found += 7L * Math.multiplyExact(x, y);
        } catch (ArithmeticException e) {
            found += 11;
        }
        try {
            found += 13L * Math.floorDiv(x, y) + 17L * Math.floorMod(x, y);
        } catch (ArithmeticException e) {
            found += 19;
        }
        show("exact " + x + " " + y, found);
    }

    static void exact(long x, long y) {
        long found = 0;
        try {
            found += Math.addExact(x, y);
        } catch (ArithmeticException e) {
            found += e.getMessage().hashCode();
        }
        try {
            found += 3L * Math.subtractExact(x, y);
        } catch (ArithmeticException e) {
            found += 5;
        }
        try {
            found += 7L * Math.multiplyExact(x, y);
        } catch (ArithmeticException e) {
            found += 11;
        }
        try {
            found += 13L * Math.floorDiv(x, y) + 17L * Math.floorMod(x, y);
        } catch (ArithmeticException e) {
            found += 19;
        }
        try {
            found += Math.toIntExact(x);
        } catch (ArithmeticException e) {
            found += e.getMessage().hashCode();
        }
        show("exact " + x + " " + y, found);
    }

    static void longs() {
        for (int i = 0; i < LONGS.length; i++) {
            long x = LONGS[i];
            String name = "long " + x + " ";
            Long box = Long.valueOf(x);
            show(name + "toString", box);
            show(name + "hex", Long.toHexString(x));
            show(name + "octal", Long.toOctalString(x));
            show(name + "binary", Long.toBinaryString(x));
            show(name + "radix 3", Long.toString(x, 3));
            show(name + "radix 36", Long.toString(x, 36));
            show(name + "bits", Long.bitCount(x));
            show(name + "leading", Long.numberOfLeadingZeros(x));
            show(name + "trailing", Long.numberOfTrailingZeros(x));
            show(name + "highest", Long.highestOneBit(x));
            show(name + "lowest", Long.lowestOneBit(x));
            show(name + "left", Long.rotateLeft(x, 5));
            show(name + "right", Long.rotateRight(x, 67));
            show(name + "reverse", Long.reverse(x));
            show(name + "bytes", Long.reverseBytes(x));
            show(name + "signum", Long.signum(x));
            show(name + "hash", box.hashCode());
            show(name + "int", box.intValue());
            show(name + "same", Long.valueOf(x) == Long.valueOf(x) || x > 127 || x < -128);
            show(name + "equals Integer", box.equals(Integer.valueOf((int) x)));
            show(name + "abs", Math.abs(x));
            for (int j = 0; j < LONGS.length; j++) {
                long y = LONGS[j];
                show(name + "compare " + y, Long.compare(x, y) + 10 * box.compareTo(Long.valueOf(y)));
                show(name + "unsigned " + y, Long.compareUnsigned(x, y));
                show(name + "max min " + y, Math.max(x, y) - 3L * Math.min(x, y));
                exact(x, y);
            }
        }
    }

    interface Reader {
        Object read(String text);
    }

    static void read(String name, Reader reader) {
        for (int i = 0; i <= TEXTS.length; i++) {
            String text = i < TEXTS.length ? TEXTS[i] : null;
            try {
                show(name + " " + text, reader.read(text));
            } catch (NumberFormatException e) {
                show(name + " " + text, e);
            } catch (NullPointerException e) {
                show(name + " " + text, "NullPointerException");
            }
        }
    }

    static void texts() {
        read("parseInt", new Reader() {
            public Object read(String text) {
                return String.valueOf(Integer.parseInt(text));
            }
        });
        read("parseInt 16", new Reader() {
            public Object read(String text) {
                return String.valueOf(Integer.parseInt(text, 16));
            }
        });
        read("parseInt 37", new Reader() {
            public Object read(String text) {
                return String.valueOf(Integer.parseInt(text, 37));
            }
        });
        read("Integer", new Reader() {
            public Object read(String text) {
                return new Integer(text);
            }
        });
        read("Integer.decode", new Reader() {
            public Object read(String text) {
                return Integer.decode(text);
            }
        });
        read("parseLong", new Reader() {
            public Object read(String text) {
                return String.valueOf(Long.parseLong(text));
            }
        });
        read("Long 36", new Reader() {
            public Object read(String text) {
                return Long.valueOf(text, 36);
            }
        });
        read("Long.decode", new Reader() {
            public Object read(String text) {
                return Long.decode(text);
            }
        });
        read("Short", new Reader() {
            public Object read(String text) {
                return Short.valueOf(text);
            }
        });
        read("Short.decode", new Reader() {
            public Object read(String text) {
                return Short.decode(text);
            }
        });
        read("Byte", new Reader() {
            public Object read(String text) {
                return Byte.valueOf(text);
            }
        });
        read("Boolean", new Reader() {
            public Object read(String text) {
                return Boolean.valueOf(text);
            }
        });
    }

    static void chars() {
        for (int i = 0; i < 256; i++) {
            char c = (char) i;
            StringBuilder line = new StringBuilder().append("char ").append(i).append(' ');
            line.append(Character.isDigit(c) ? 'd' : '-').append(Character.isLetter(c) ? 'l' : '-').append(Character.isLetterOrDigit(c) ? 'b' : '-');
            line.append(Character.isUpperCase(c) ? 'U' : '-').append(Character.isLowerCase(c) ? 'L' : '-').append(Character.isWhitespace(c) ? 'w' : '-');
            line.append(Character.isSpaceChar(c) ? 's' : '-').append(Character.isISOControl(c) ? 'c' : '-').append(Character.isJavaIdentifierStart(c) ? 'i' : '-');
            line.append(Character.isJavaIdentifierPart(c) ? 'p' : '-').append(Character.isAlphabetic(c) ? 'a' : '-').append(' ');
            line.append((int) Character.toUpperCase(c)).append(' ').append((int) Character.toLowerCase(c)).append(' ');
            line.append(Character.digit(c, 10)).append(' ').append(Character.digit(c, 36)).append(' ').append(Character.digit(c, 1)).append(' ');
            line.append(Character.getNumericValue(c)).append(' ').append((int) Character.forDigit(i, 36)).append(' ').append((int) Character.forDigit(i, 10));
            line.append(' ').append((int) Character.reverseBytes(c));
            System.out.println(line.toString());
        }
        Character box = Character.valueOf('x');
        show("char box", box);
        show("char text", Character.toString('y'));
        show("char hash", box.hashCode());
        show("char compare", box.compareTo(Character.valueOf('a')) + Character.compare('a', 'd'));
        show("char same", box == Character.valueOf('x'));
        show("char equals", box.equals(new Character('x')) && !box.equals("x"));
        show("surrogates", Character.isHighSurrogate('\ud800') && Character.isLowSurrogate('\udc00') && !Character.isSurrogate('a'));
        show("code point", Character.toCodePoint('\ud83d', '\ude00'));
        show("char count", Character.charCount(65) + 10 * Character.charCount(0x1f600));
        show("pair", Character.isSurrogatePair('\ud83d', '\ude00') && Character.isSupplementaryCodePoint(0x10000) && !Character.isValidCodePoint(-1));
    }

    static void rest() {
        for (int i = -130; i < 130; i += 37) {
            Byte b = Byte.valueOf((byte) i);
            Short s = Short.valueOf((short) (i * 300));
            show("byte", b);
            show("byte hash", b.hashCode() + Byte.toUnsignedInt((byte) i));
            show("byte compare", b.compareTo(Byte.valueOf((byte) 5)));
            show("byte same", b == Byte.valueOf((byte) i));
            show("short", s);
            show("short hash", s.hashCode() + Short.toUnsignedInt((short) i));
            show("short compare", s.compareTo(Short.valueOf((short) 5)) + s.intValue() + s.longValue());
            show("short equals", s.equals(Short.valueOf((short) (i * 300))) && !s.equals(Integer.valueOf(i * 300)));
        }
        show("true", Boolean.TRUE);
        show("boolean hash", Boolean.TRUE.hashCode() + Boolean.hashCode(false));
        show("boolean compare", Boolean.TRUE.compareTo(Boolean.FALSE) + 10 * Boolean.compare(false, true));
        show("boolean same", Boolean.valueOf(true) == Boolean.TRUE && Boolean.valueOf("TRUE").booleanValue());
        show("boolean equals", Boolean.FALSE.equals(new Boolean(false)) && !Boolean.FALSE.equals(null));
        show("logic", Boolean.logicalAnd(true, false) || Boolean.logicalOr(false, false) || Boolean.logicalXor(true, false));
        Number number = Long.valueOf(0x1ffL);
        show("number", number.byteValue() + number.shortValue() + number.intValue());
        show("limits", Integer.SIZE + Long.SIZE + Byte.MAX_VALUE + Short.MIN_VALUE + Character.MAX_VALUE);
    }

    public static void main(String[] args) {
        ints();
        longs();
        texts();
        chars();
        rest();
    }
}
