/* Arithmetic of 128 bits, which the compiler asks for by these names. */
typedef unsigned long word;
typedef unsigned __int128 wide;
union halves { wide whole; struct { word low, high; } part; };

wide __multi3(wide a, wide b) {
    union halves x = { a }, y = { b }, r;
    word al = x.part.low & 0xffffffff, ah = x.part.low >> 32, bl = y.part.low & 0xffffffff, bh = y.part.low >> 32;
    word low = al * bl, middle = ah * bl + (low >> 32), other = al * bh + (middle & 0xffffffff);
    r.part.low = (other << 32) | (low & 0xffffffff);
    r.part.high = ah * bh + (middle >> 32) + (other >> 32) + x.part.low * y.part.high + x.part.high * y.part.low;
    return r.whole;
}
wide __ashlti3(wide a, int n) {
    union halves x = { a }, r;
    if (n & 64) { r.part.low = 0; r.part.high = x.part.low << (n & 63); }
    else if (n == 0) return a;
    else { r.part.low = x.part.low << n; r.part.high = (x.part.high << n) | (x.part.low >> (64 - n)); }
    return r.whole;
}
wide __lshrti3(wide a, int n) {
    union halves x = { a }, r;
    if (n & 64) { r.part.high = 0; r.part.low = x.part.high >> (n & 63); }
    else if (n == 0) return a;
    else { r.part.high = x.part.high >> n; r.part.low = (x.part.low >> n) | (x.part.high << (64 - n)); }
    return r.whole;
}
