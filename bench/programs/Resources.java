// MissingClass: AutoCloseable isn't built in
class Resources { static class R implements AutoCloseable { public void close() {} } public static void main(String[] args) { try (R r = new R()) { System.out.println(r != null); } } }
