import java.util.ArrayList;
import java.util.List;
import java.util.Random;

/**
 * Arguments and results of Java's StrictMath, which is Sun's fdlibm 5.3, one to a line: the function's letter, the two
 * arguments and the result, each by its bits. A function of one argument has 0 for the second. Beyond 70 radians sin, cos
 * and tan are NaN here, as in crates/fdlibm_trig. Every NaN is written 7ff8000000000000.
 *
 * java tests/fdlibm/Values.java SEED LINES prints LINES lines for each of the eight functions: the special values first,
 * then random ones, the same for the same seed. Two roots more stand at the end.
 */
public class Values {
    static final StringBuilder OUT = new StringBuilder();

    static String hex(double d) {
        return String.format("%016x", Double.doubleToLongBits(d));
    }

    static void line(char function, double x, double y, double result) {
        OUT.append(function).append(' ').append(hex(x)).append(' ').append(hex(y)).append(' ').append(hex(result)).append('\n');
        if (OUT.length() > 1 << 20) {
            System.out.print(OUT);
            OUT.setLength(0);
        }
    }

    static double within70(double x, double result) {
        return Math.abs(x) <= 70 ? result : Double.NaN;
    }

    static void one(char function, double x) {
        switch (function) {
            case 's': line('s', x, 0, within70(x, StrictMath.sin(x))); break;
            case 'c': line('c', x, 0, within70(x, StrictMath.cos(x))); break;
            case 't': line('t', x, 0, within70(x, StrictMath.tan(x))); break;
            case 'q': line('q', x, 0, StrictMath.sqrt(x)); break;
            case 'a': line('a', x, 0, StrictMath.atan(x)); break;
            case 'i': line('i', x, 0, StrictMath.asin(x)); break;
            case 'o': line('o', x, 0, StrictMath.acos(x)); break;
            default: throw new IllegalArgumentException();
        }
    }

    static void around(List<Double> list, double d) {
        for (double x : new double[] {d, Math.nextUp(d), Math.nextDown(d)}) {
            list.add(x);
            list.add(-x);
        }
    }

    /** Zeros, subnormals, ends of the range, and the thresholds of every function with their neighbours. */
    static List<Double> special() {
        List<Double> list = new ArrayList<>();
        list.add(Double.NaN);
        list.add(Double.POSITIVE_INFINITY);
        list.add(Double.NEGATIVE_INFINITY);
        list.add(0.0);
        list.add(-0.0);
        double[] ends = {Double.MIN_VALUE, 1e-310, Double.MIN_NORMAL, 1e-300, Double.MAX_VALUE, 1e300, 70.0, 0.3, 0.78125, 0.6744, 1.0, 0.5, 0.975,
            0.4375, 0.6875, 1.1875, 2.4375, 1.5, 2.0, 4.0, 3.0, 1e22};
        for (double d : ends) around(list, d);
        for (int k : new int[] {-57, -29, -28, -27, -1074, -1022, -512, 52, 53, 60, 66, 512, 1023}) around(list, Math.scalb(1.0, k));
        for (long high : new long[] {0x3fe921fbL, 0x3fe90000L, 0x3fd33333L, 0x3fe59428L, 0x3fef3333L, 0x4002d97cL, 0x3ff921fbL}) {
            around(list, Double.longBitsToDouble(high << 32));
            around(list, Double.longBitsToDouble(high << 32 | 0xffffffffL));
        }
        return list;
    }

    /** Multiples of π/4 up to 70 with their neighbours, and patterns with the high word of a multiple of π/2. */
    static List<Double> angles(Random random) {
        List<Double> list = special();
        for (int k = 1; k <= 90; k++) around(list, k * (Math.PI / 4));
        for (int n = 1; n <= 44; n++) {
            long high = Double.doubleToLongBits(n * (Math.PI / 2)) >>> 32;
            for (int i = 0; i < 4; i++) list.add(Double.longBitsToDouble(high << 32 | random.nextInt() & 0xffffffffL));
            for (long d = -3; d <= 3; d++) list.add(Double.longBitsToDouble(Double.doubleToLongBits(n * (Math.PI / 2)) + d));
        }
        return list;
    }

    static double any(Random random) {
        switch (random.nextInt(5)) {
            case 0: return random.nextDouble() * 140 - 70;
            case 1: return random.nextGaussian();
            case 2: return Math.scalb(random.nextDouble() - 0.5, -random.nextInt(60));
            case 3: return random.nextDouble() * 2 - 1;
            default: return Double.longBitsToDouble(random.nextLong());
        }
    }

    static double root(Random random) {
        double d = random.nextInt(3) == 0 ? any(random) : Math.abs(any(random));
        switch (random.nextInt(4)) {
            case 0: return d * d;
            case 1: return Double.longBitsToDouble(Double.doubleToLongBits(d * d) + random.nextInt(5) - 2);
            case 2: return Math.scalb(random.nextDouble(), -1023 - random.nextInt(51));
            default: return d;
        }
    }

    static void pairs(Random random, int lines) {
        double[] edges = {0.0, -0.0, 1.0, -1.0, Double.POSITIVE_INFINITY, Double.NEGATIVE_INFINITY, Double.NaN, Double.MIN_VALUE, -Double.MIN_VALUE,
            Double.MAX_VALUE, -Double.MAX_VALUE, 1e300, -1e300, 2.5, -2.5};
        int done = 0;
        for (double y : edges) {
            for (double x : edges) {
                if (done++ < lines) line('2', y, x, StrictMath.atan2(y, x));
            }
        }
        while (done++ < lines) {
            double y = any(random);
            double scale = Math.scalb(1 + random.nextDouble(), random.nextInt(140) - 70);
            double x = random.nextInt(3) == 0 ? any(random) : (random.nextBoolean() ? y : -y) * scale;
            line('2', y, x, StrictMath.atan2(y, x));
        }
    }

    public static void main(String[] words) {
        Random random = new Random(Long.parseLong(words[0]));
        int lines = Integer.parseInt(words[1]);
        List<Double> angles = angles(random);
        List<Double> special = special();
        for (char function : "sctqaio".toCharArray()) {
            List<Double> first = "sct".indexOf(function) >= 0 ? angles : special;
            for (int i = 0; i < lines; i++) {
                double x = i < first.size() ? first.get(i) : function == 'q' ? root(random) : any(random);
                if ("io".indexOf(function) >= 0 && i >= first.size() && Math.abs(x) > 1 && random.nextInt(20) > 0) x = 1 / x;
                one(function, x);
            }
        }
        pairs(random, lines);
        // an exact root, and one of a subnormal float that, cut to 600 binary places, lies in the middle of two floats
        for (long bits : new long[] {0x4022000000000000L, 0x000adca9a24b97f1L}) one('q', Double.longBitsToDouble(bits));
        System.out.print(OUT);
    }
}
