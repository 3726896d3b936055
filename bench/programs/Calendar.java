// links
class Calendar {
    static boolean isLeap(int y) { return y % 4 == 0 && y % 100 != 0 || y % 400 == 0; }
    static int days(int y, int m) { switch (m) { case 2: return isLeap(y) ? 29 : 28; case 4: case 6: case 9: case 11: return 30; default: if (m < 1 || m > 12) throw new IllegalArgumentException("month " + m); return 31; } }

    // days since 1970-01-01, in closed form
    static long day(int y, int m, int d) {
        long a = y - (m <= 2 ? 1 : 0), era = (a >= 0 ? a : a - 399) / 400, of = a - era * 400, n = (153 * (m + (m > 2 ? -3 : 9)) + 2) / 5 + d - 1;
        return era * 146097 + of * 365 + of / 4 - of / 100 + n - 719468;
    }

    static String date(long day) {
        long z = day + 719468, era = (z >= 0 ? z : z - 146096) / 146097, e = z - era * 146097, y = (e - e / 1460 + e / 36524 - e / 146096) / 365;
        long n = e - (365 * y + y / 4 - y / 100), p = (5 * n + 2) / 153, d = n - (153 * p + 2) / 5 + 1, m = p < 10 ? p + 3 : p - 9;
        return (y + era * 400 + (m <= 2 ? 1 : 0)) + (m < 10 ? "-0" : "-") + m + (d < 10 ? "-0" : "-") + d;
    }

    static String weekday(long day) { return new String[]{"Thu", "Fri", "Sat", "Sun", "Mon", "Tue", "Wed"}[(int) ((day % 7 + 7) % 7)]; }
    static String easter(int y) { int a = y % 19, b = y / 100, c = y % 100, d = b / 4, e = b % 4, f = (b + 8) / 25, g = (b - f + 1) / 3, h = (19 * a + b - d - g + 15) % 30, i = c / 4, k = c % 4, l = (32 + 2 * e + 2 * i - h - k) % 7, m = (a + 11 * h + 22 * l) / 451; return (h + l - 7 * m + 114) / 31 + "/" + ((h + l - 7 * m + 114) % 31 + 1); }

    public static void main(String[] args) {
        long count = day(1600, 1, 1); int wrong = 0;
        for (int y = 1600; y < 1640; y++) for (int m = 1; m <= 12; m++) { if (day(y, m, 1) != count) wrong++; count += days(y, m); }
        System.out.println(wrong + " " + date(count) + " " + date(0) + " " + date(-1) + " " + date(-719529));
        for (int y : new int[]{1900, 2000, 2024, 2026}) System.out.println(isLeap(y) + " " + weekday(day(y, 3, 1)) + " " + easter(y) + " " + date(day(y, 2, 28) + 1));
        String month = ""; for (int d = 1; d <= days(2026, 11); d++) month += d + (weekday(day(2026, 11, d)).equals("Sun") ? "|" : " "); System.out.println(month);
        try { days(2026, 13); } catch (IllegalArgumentException e) { System.out.println(e.getMessage()); }
    }
}
