// links
class RomanNumerals {
    static final int[] VALUES = {1000, 900, 500, 400, 100, 90, 50, 40, 10, 9, 5, 4, 1};
    static final String[] SIGNS = {"M", "CM", "D", "CD", "C", "XC", "L", "XL", "X", "IX", "V", "IV", "I"};

    static String roman(int n) {
        if (n <= 0 || n > 3999) throw new IllegalArgumentException("no numeral: " + n);
        StringBuilder s = new StringBuilder();
        for (int i = 0; i < VALUES.length; i++) for (; n >= VALUES[i]; n -= VALUES[i]) s.append(SIGNS[i]);
        return s.toString();
    }

    static int digit(char c) {
        switch (c) { case 'I': return 1; case 'V': return 5; case 'X': return 10; case 'L': return 50; case 'C': return 100; case 'D': return 500; case 'M': return 1000; }
        throw new IllegalArgumentException("no digit: " + c);
    }

    static int number(String s) {
        int n = 0, last = 0;
        for (int i = s.length() - 1; i >= 0; i--) { int d = digit(s.charAt(i)); n += d < last ? -d : d; if (d > last) last = d; }
        return n;
    }

    static String words(int n) {
        String[] small = {"zero", "one", "two", "three", "four", "five", "six", "seven", "eight", "nine", "ten", "eleven", "twelve"};
        String[] tens = {"", "", "twenty", "thirty", "forty", "fifty", "sixty", "seventy", "eighty", "ninety"};
        if (n < 0) return "minus " + words(-n);
        if (n < small.length) return small[n];
        if (n < 20) return (n == 13 ? "thir" : n == 15 ? "fif" : n == 18 ? "eigh" : small[n - 10]) + "teen";
        if (n < 100) return tens[n / 10] + (n % 10 > 0 ? "-" + small[n % 10] : "");
        if (n < 1000) return small[n / 100] + " hundred" + (n % 100 > 0 ? " and " + words(n % 100) : "");
        return words(n / 1000) + " thousand" + (n % 1000 > 0 ? " " + words(n % 1000) : "");
    }

    public static void main(String[] args) {
        int wrong = 0;
        for (int n = 1; n < 4000; n += 7) if (number(roman(n)) != n) wrong++;
        System.out.println(wrong);
        for (int n : new int[]{1, 4, 9, 14, 40, 90, 400, 1994, 2026, 3999, 0, 4000}) try { System.out.println(roman(n)); } catch (IllegalArgumentException e) { System.out.println(e.getMessage()); }
        try { number("MCMZ"); } catch (IllegalArgumentException e) { System.out.println(e.getMessage()); }
        for (int n : new int[]{0, 12, 13, 18, 42, 100, 115, 999, 1000, 12345, 900018, -77}) System.out.println(words(n));
    }
}
