// Each instance compares the word with the text at a place of its own, and goes on as long as the letters are the same.
// The right side of && is computed for the instances whose left side is true: past the word's end no letter is read.
// Each instance keeps its own first place; reduce_min joins them after the loop.
export uniform int find(const uniform uint8 text[], uniform int length, const uniform uint8 word[], uniform int letters) {
    int first = length;
    foreach (i = 0 ... length - letters + 1) {
        int same = 0;
        while (same < letters && text[i + same] == word[same]) same++;
        if (same == letters) first = min(first, i);
    }
    uniform int least = reduce_min(first);
    return least < length ? least : -1;
}
