// The gang fills a table that all its instances share, 256 numbers in several runs, and then reads it by an index of each one's own.
// Each instance takes one message, from starts[m] up to starts[m + 1]. They are not equally long: who is done waits for the others.
// 0xEDB88320 is a uint32, as the table is, so that >> brings zeros in from the left.
export void crc32(const uniform uint8 bytes[], const uniform int starts[], uniform uint32 sums[], uniform int count) {
    uniform uint32 table[256];
    foreach (n = 0 ... 256) {
        uint32 entry = n;
        for (uniform int bit = 0; bit < 8; bit++) {
            entry = (entry & 1) == 1 ? (entry >> 1) ^ 0xEDB88320 : entry >> 1;
        }
        table[n] = entry;
    }
    foreach (m = 0 ... count) {
        uint32 sum = 0xFFFFFFFF;
        for (int at = starts[m]; at < starts[m + 1]; at++) {
            sum = table[(sum ^ bytes[at]) & 255] ^ (sum >> 8);
        }
        sums[m] = ~sum;
    }
}
