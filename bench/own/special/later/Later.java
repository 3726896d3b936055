package special;

interface K { default int m() { return 2; } }

interface L extends I { int m(); }
