# Wrong versions of reference.c, read by can_fail.sh: slip NAME RIGHT WRONG
#
# Each slip is one change: the text RIGHT, which must stand in reference.c exactly once, becomes WRONG. Where the name
# begins with "both:", the reference that the library is compared with makes the slip too.
# shellcheck shell=bash disable=SC2016

# The slip made by the library alone, and by both sides: the tests hold a list against appends one after another, too, a
# salvage against the blocks that they put into the old bytes, and know which residuals they padded.
slip_of_one_and_both() {
    slip "$1" "$2" "$3"
    slip "both: $1" "$2" "$3"
}

# ---- Packers that would be easy to write and useless
slip "packer refuses everything" 'if (words_len > MOST_WORDS) {
        return 2;
    }
    if (out_len' 'return 3;
    if (out_len'
slip "packer answers one fixed block" 'write_block(block, words, words_len, &p, dfcm_chosen, low_bits_of);' \
    'write_block(block, words, 0, &p, dfcm_chosen, low_bits_of);'
slip "packer writes nothing" 'memcpy(out, block, length);' ''
slip "only the first word is predicted" 'int dfcm_is_chosen = dfcm_chosen' \
    'if (i > 0) { fcm_residual = dfcm_residual = words[i]; } int dfcm_is_chosen = dfcm_chosen'
slip "states a length it did not write" 'hand_over_tables(&p, fcm, dfcm);
    return length;' 'hand_over_tables(&p, fcm, dfcm);
    return length + 1;'

# ---- Predictors
slip "fcm hash shifted by 5" 'p->fcm_hash << 6' 'p->fcm_hash << 5'
slip "fcm hash takes the word shifted by 47" 'v >> 48' 'v >> 47'
slip "dfcm hash shifted by 3" 'p->dfcm_hash << 2' 'p->dfcm_hash << 3'
slip "dfcm hash takes the difference shifted by 41" 'd >> 40' 'd >> 41'
slip "dfcm hash takes the word" 'd >> 40' 'v >> 40'
slip "fcm hash adds in place of xor" '(p->fcm_hash << 6) ^' '(p->fcm_hash << 6) +'
slip "fcm hash forgets its past" '((p->fcm_hash << 6) ^ (v >> 48))' '(v >> 48)'
slip "difference stored after the last word was replaced" 'uint64_t d = v - p->last;' \
    'p->last = v; uint64_t d = v - p->last;'
slip "dfcm stores the word" 'p->dfcm[p->dfcm_hash] = d;' 'p->dfcm[p->dfcm_hash] = v;'
slip "dfcm prediction without the last word" 'p->dfcm[p->dfcm_hash] + p->last' 'p->dfcm[p->dfcm_hash]'
slip "last word never replaced" 'p->last = v;' ''
slip "fcm stored under the new hash" 'p->fcm[p->fcm_hash] = v;' \
    'p->fcm[((p->fcm_hash << 6) ^ (v >> 48)) % p->entries] = v;'
slip "last word starts at 1" 'p.last = 0;' 'p.last = 1;'
slip "fcm hash starts elsewhere" 'p.fcm_hash = 0;' 'p.fcm_hash = entries - 1;'
slip "a tie goes to dfcm" 'leading_zero_bits(dfcm_residual) > ' 'leading_zero_bits(dfcm_residual) >= '
slip "bytes compared in place of bits" \
    'leading_zero_bits(dfcm_residual) > leading_zero_bits(fcm_residual)' \
    'leading_zero_bytes(dfcm_residual) > leading_zero_bytes(fcm_residual)'
slip "residuals compared in place of bits" \
    'leading_zero_bits(dfcm_residual) > leading_zero_bits(fcm_residual)' 'dfcm_residual < fcm_residual'
slip "low bits of the residual that was left" 'low_bits_of(residual)' \
    'low_bits_of(dfcm_is_chosen ? fcm_residual : dfcm_residual)'
slip "dfcm never chosen" 'int dfcm_is_chosen = dfcm_chosen' 'int dfcm_is_chosen = 0 && dfcm_chosen'

# ---- Tables
slip "fcm not cleared before packing" 'uint8_t *block = room_for' \
    'memcpy(p.fcm, fcm, 8 * entries); uint8_t *block = room_for'
slip "dfcm not cleared before packing" 'uint8_t *block = room_for' \
    'memcpy(p.dfcm, dfcm, 8 * entries); uint8_t *block = room_for'
slip "upper half not cleared before packing" 'uint8_t *block = room_for' \
    'memcpy(p.fcm + entries / 2, fcm + entries / 2, 8 * (entries - entries / 2)); uint8_t *block = room_for'
slip "fcm not cleared before unpacking" 'read_block(block, declared, words, &p);' \
    'memcpy(p.fcm, fcm, 8 * fcm_len); read_block(block, declared, words, &p);'
slip "last table word not cleared before unpacking" 'read_block(block, declared, words, &p);' \
    'p.dfcm[fcm_len - 1] = dfcm[fcm_len - 1]; read_block(block, declared, words, &p);'
slip "dfcm table not left as it ended" 'dfcm[i] = p->dfcm[i];' ''
slip "fcm table left cleared" 'fcm[i] = p->fcm[i];' 'fcm[i] = 0;'
slip "pack clears a table on a refusal" 'if (out_len < worst_length(words_len)) {' \
    'if (out_len < worst_length(words_len)) { memset(fcm, 0, 8 * fcm_len);'
slip "unpack clears a table on a refusal" 'if (words_len < declared) {' \
    'if (words_len < declared) { memset(dfcm, 0, 8 * fcm_len);'
slip "unpack clears a table on a bad block" \
    'uint32_t refusal = refuse_block(block, block_len, &declared);' \
    'uint32_t refusal = refuse_block(block, block_len, &declared); if (refusal == 6) { fcm[0] = 0; }'
slip "tables may differ" 'if (fcm_len != dfcm_len) {' 'if (0) {'
slip "table of one word refused" 'for (unsigned t = 0; t <= MOST_T; t++)' \
    'for (unsigned t = 1; t <= MOST_T; t++)'
slip "t = 16 refused" 'for (unsigned t = 0; t <= MOST_T; t++)' 'for (unsigned t = 0; t < MOST_T; t++)'
slip "t = 17 accepted" 'for (unsigned t = 0; t <= MOST_T; t++)' 'for (unsigned t = 0; t <= MOST_T + 1; t++)'
slip "table size cut to 32 bits" '*length = 0;
    if (refuse_tables' '*length = 0; fcm_len = (uint32_t)fcm_len; dfcm_len = (uint32_t)dfcm_len;
    if (refuse_tables'
slip "table between two powers accepted" 'if (fcm_len == (size_t)1 << t) {' \
    'if (fcm_len / 2 == (size_t)1 << t >> 1) {'

# ---- Codes and residual bytes
slip "four zero bytes as code 4" '{ 0, 1, 2, 3, 3, 4, 5, 6, 7 }' '{ 0, 1, 2, 3, 4, 4, 5, 6, 7 }'
slip "code 4 stands for four bytes" '{ 8, 7, 6, 5, 3, 2, 1, 0 }' '{ 8, 7, 6, 5, 4, 2, 1, 0 }'
slip "top bit names fcm" 'code >= DFCM_BIT ?' 'code < DFCM_BIT ?'
slip "first code read from the low half" 'index % 2 == 0 ? pair / 16 : pair % 16' \
    'index % 2 == 1 ? pair / 16 : pair % 16'
slip "first code written to the low half" 'index % 2 == 0 ? 16 * code : code' \
    'index % 2 == 1 ? 16 * code : code'
slip "residual high byte first" 'write_field(block + at, bytes_written[low_bits], residual);' \
    'for (unsigned k = 0; k < bytes_written[low_bits]; k++)
        { block[at + k] = (uint8_t)(residual >> 8 * (bytes_written[low_bits] - 1 - k)); }'
slip "filler 0" 'write_code(block, words_len, FILLER);' ''
slip "filler 15" 'write_code(block, words_len, FILLER);' 'write_code(block, words_len, 15);'

# ---- Block checks
slip "filler not checked" 'declared % 2 == 1 && read_code(block, declared) != FILLER' '0'
slip "filler 15 accepted" 'read_code(block, declared) != FILLER' 'read_code(block, declared) % 8 != FILLER'
slip "filler half counted into the length" 'i < declared; i++' 'i < declared + declared % 2; i++'
slip "filler checked before the length" 'if (read_field(block + 4, 4) != block_len) {' \
    'if (declared % 2 == 1 && block_len >= 8 + code_bytes(declared)
        && read_code(block, declared) != FILLER) { return 6; }
    if (read_field(block + 4, 4) != block_len) {'
slip "length checked before the count" 'if (declared > MOST_WORDS) {' \
    'if (read_field(block + 4, 4) != block_len) { return 5; } if (declared > MOST_WORDS) {'
slip "block of 8 bytes refused" 'if (block_len < BLOCK_HEADER) {' 'if (block_len <= BLOCK_HEADER) {'
slip "block of 7 bytes looked at" 'if (block_len < BLOCK_HEADER) {' 'if (block_len < BLOCK_HEADER - 1) {'
slip "65,536 declared words refused" 'if (declared > MOST_WORDS) {' 'if (declared >= MOST_WORDS) {'
slip "65,537 declared words accepted" 'if (declared > MOST_WORDS) {' 'if (declared > MOST_WORDS + 1) {'
slip "count read from two bytes" 'uint64_t declared = read_field(block, 4);' \
    'uint64_t declared = read_field(block, 2);'
slip "length field not compared with the slice" 'if (read_field(block + 4, 4) != block_len) {' 'if (0) {'
slip "slice length cut to 32 bits" 'if (read_field(block + 4, 4) != block_len) {' \
    'block_len = (uint32_t)block_len; if (read_field(block + 4, 4) != block_len) {'
slip "bytes behind the residuals accepted" 'if (expected != block_len) {' 'if (expected > block_len) {'
slip "missing residual bytes accepted" 'if (expected != block_len) {' 'if (expected < block_len) {'
slip "codes beyond the slice read" 'if (expected > block_len) {' 'if (0) {'

# ---- Padded residuals: which are refused
slip_of_one_and_both "padded: never refused" 'if (has_padded_residual(block, declared)) {' 'if (0) {'
slip_of_one_and_both "padded: low bits 3 refused at one zero byte" \
    'return residual[written - 1] == 0 && residual[written - 2] == 0;' 'return residual[4] == 0;'
slip_of_one_and_both "padded: low bits 3 never refused" \
    'return residual[written - 1] == 0 && residual[written - 2] == 0;' 'return 0;'
slip_of_one_and_both "padded: low bits 3 by either of the two bytes" \
    'residual[written - 1] == 0 && residual' 'residual[written - 1] == 0 || residual'
slip "padded: low bits 3 by the second byte alone" \
    'return residual[written - 1] == 0 && residual[written - 2] == 0;' 'return residual[3] == 0;'
slip "padded: low bits 3 from three zero bytes on" 'residual[written - 2] == 0;' \
    'residual[written - 2] == 0 && residual[written - 3] == 0;'
slip "padded: low bits 4 for four zero bytes" 'if (low_bits == 3) {' 'if (low_bits == 4) {'
slip "padded: two zero bytes asked for wherever there are two" 'if (low_bits == 3) {' 'if (written > 1) {'
slip_of_one_and_both "padded: low bits 7 looked at too" 'if (low_bits == 7) {
        return 0;' 'if (low_bits == 7) {
        return residual[-1] == 0;'
slip "padded: low bits 6 not looked at" 'if (low_bits == 7) {' 'if (low_bits >= 6) {'
slip "padded: low bits 0 not looked at" 'if (low_bits == 7) {' 'if (low_bits == 7 || low_bits == 0) {'
slip_of_one_and_both "padded: the lowest byte in place of the top one" 'return residual[written - 1] == 0;' \
    'return residual[0] == 0;'
slip "padded: any byte of 0" 'return residual[written - 1] == 0;' 'return memchr(residual, 0, written) != NULL;'
slip_of_one_and_both "padded: only the residual 0" 'return residual[written - 1] == 0;' \
    'return read_field(residual, written) == 0;'
slip "padded: the residual 0 accepted" 'return residual[written - 1] == 0;' \
    'return residual[written - 1] == 0 && read_field(residual, written) != 0;'
slip "padded: a zero bit on top refused" 'return residual[written - 1] == 0;' 'return residual[written - 1] < 128;'

# ---- Padded residuals: the walk over the codes
slip_of_one_and_both "padded: the second code of a pair skipped" 'if (is_padded(low_bits, block + at)) {' \
    'if (i % 2 == 0 && is_padded(low_bits, block + at)) {'
slip "padded: the first code of a pair skipped" 'if (is_padded(low_bits, block + at)) {' \
    'if (i % 2 == 1 && is_padded(low_bits, block + at)) {'
slip_of_one_and_both "padded: the last code of an odd count skipped" 'if (is_padded(low_bits, block + at)) {' \
    'if ((i + 1 < count || count % 2 == 0) && is_padded(low_bits, block + at)) {'
slip "padded: the last code of an even count skipped" 'if (is_padded(low_bits, block + at)) {' \
    'if ((i + 1 < count || count % 2 == 1) && is_padded(low_bits, block + at)) {'
slip_of_one_and_both "padded: only the first code tested" 'if (is_padded(low_bits, block + at)) {' \
    'if (i == 0 && is_padded(low_bits, block + at)) {'
slip "padded: only the last code tested" 'if (is_padded(low_bits, block + at)) {' \
    'if (i + 1 == count && is_padded(low_bits, block + at)) {'
slip_of_one_and_both "padded: dfcm codes not tested" 'if (is_padded(low_bits, block + at)) {' \
    'if (read_code(block, i) < DFCM_BIT && is_padded(low_bits, block + at)) {'
slip "padded: fcm codes not tested" 'if (is_padded(low_bits, block + at)) {' \
    'if (read_code(block, i) >= DFCM_BIT && is_padded(low_bits, block + at)) {'
slip "padded: the walk ends at a code without a byte" 'if (is_padded(low_bits, block + at)) {' \
    'if (low_bits == 7) { return 0; }
        if (is_padded(low_bits, block + at)) {'
slip "padded: the walk stays at the first residual" 'at += bytes_written[low_bits];
    }
    return 0;' '}
    return 0;'
slip "padded: the walk begins at the filler's byte" 'uint64_t at = BLOCK_HEADER + code_bytes(count);
    for (uint64_t i = 0; i < count; i++) {
        unsigned low_bits' 'uint64_t at = BLOCK_HEADER + count / 2;
    for (uint64_t i = 0; i < count; i++) {
        unsigned low_bits'
slip_of_one_and_both "padded: the filler taken as a code" 'at += bytes_written[low_bits];
    }
    return 0;' 'at += bytes_written[low_bits];
    }
    return count % 2 == 1 && block[at - 1] == 0;'
slip_of_one_and_both "padded: count cut to 16 bits" 'for (uint64_t i = 0; i < count; i++) {
        unsigned low_bits' 'for (uint64_t i = 0; i < (uint16_t)count; i++) {
        unsigned low_bits'

# ---- Padded residuals: the number, its place among the others, and what it leaves
slip "padded: answered as 5" 'return 13;' 'return 5;'
slip "padded: answered as 6" 'return 13;' 'return 6;'
slip_of_one_and_both "padded: 13 before 6" 'if (declared % 2 == 1 && read_code(block, declared) != FILLER) {' \
    'if (has_padded_residual(block, declared)) { return 13; }
    if (declared % 2 == 1 && read_code(block, declared) != FILLER) {'
slip_of_one_and_both "padded: 13 before 5, where bytes follow the residuals" 'if (expected != block_len) {' \
    'if (expected < block_len && has_padded_residual(block, declared)) { return 13; }
    if (expected != block_len) {'
slip_of_one_and_both "padded: 3 before 13" 'uint32_t refusal = refuse_block(block, block_len, &declared);' \
    'uint32_t refusal = refuse_block(block, block_len, &declared);
    if (refusal == 13 && words_len < read_field(block, 4)) { return 3; }'
slip_of_one_and_both "padded: 13 before 1" '*count = 0;
    if (refuse_tables' '*count = 0;
    if (ref_check(block, block_len) == 13) { return 13; }
    if (refuse_tables'
slip "padded: 13 before the tables of a file" 'if (refuse_file_tables(&f, fcm_len, dfcm_len)) {' \
    'if (ref_check(file + entry_offset(file, &f, index), entry_length(file, &f, index)) == 13) { return 13; }
    if (refuse_file_tables(&f, fcm_len, dfcm_len)) {'
slip "padded: unpack does not ask" 'uint32_t refusal = refuse_block(block, block_len, &declared);' \
    'uint32_t refusal = refuse_block(block, block_len, &declared);
    if (refusal == 13) { refusal = 0; declared = read_field(block, 4); }'
slip "padded: check does not ask" 'uint64_t count;
    return refuse_block(block, block_len, &count);' 'uint64_t count;
    return refuse_block(block, block_len, &count) % 13;'
slip "padded: a table is cleared" 'uint32_t refusal = refuse_block(block, block_len, &declared);' \
    'uint32_t refusal = refuse_block(block, block_len, &declared);
    if (refusal == 13) { dfcm[fcm_len - 1] = 0; }'
slip "padded: the first word is written" 'uint32_t refusal = refuse_block(block, block_len, &declared);' \
    'uint32_t refusal = refuse_block(block, block_len, &declared);
    if (refusal == 13 && words_len > 0) { words[0] = 0; }'
slip "padded: the count is answered" 'uint32_t refusal = refuse_block(block, block_len, &declared);' \
    'uint32_t refusal = refuse_block(block, block_len, &declared);
    if (refusal == 13) { *count = read_field(block, 4); }'

# ---- Padded residuals: files
slip "padded: opening looks at the blocks" 'if (!directory_is_right(file, f)) {
        return 9;
    }' 'if (!directory_is_right(file, f)) {
        return 9;
    }
    for (uint64_t i = 0; i < f->entries; i++) {
        if (ref_check(file + entry_offset(file, f, i), entry_length(file, f, i)) == 13) { return 13; }
    }'
slip "padded: finding looks at the block" '*offset = entry_offset(file, &f, index);' \
    'if (ref_check(file + entry_offset(file, &f, index), entry_length(file, &f, index)) == 13) { return 13; }
    *offset = entry_offset(file, &f, index);'
slip "padded: such a block is not replaced" 'refusal = refuse_replace(&found' \
    'if (ref_check(file + entry_offset(file, &found, index), entry_length(file, &found, index)) == 13) { return 13; }
    refusal = refuse_replace(&found'
slip "padded: nothing is appended behind such a block" 'refusal = refuse_append(file' \
    'if (f.entries > 0 && ref_check(file + entry_offset(file, &f, f.entries - 1),
            entry_length(file, &f, f.entries - 1)) == 13) { return 13; }
    refusal = refuse_append(file'
slip_of_one_and_both "salvage: a padded block is kept" 'if (refuse_block(bytes, stated, &count)) {' \
    'if (refuse_block(bytes, stated, &count) % 13) {'
slip_of_one_and_both "salvage: a padded block is passed by" 'row_of_blocks row = whole_blocks(old, old_len);' \
    'uint8_t *taken = room_for(old_len);
    size_t at = 0, end = 0;
    while (old_len - at >= BLOCK_HEADER) {
        uint64_t stated = read_field(old + at + 4, 4);
        uint32_t number = stated > old_len - at ? 5 : ref_check(old + at, stated);
        if (number == 0) { memcpy(taken + end, old + at, stated); end += stated; }
        else if (number != 13) { break; }
        at += stated;
    }
    old = taken;
    row_of_blocks row = whole_blocks(taken, end);'

# ---- Rooms and numbers of the block calls
slip "pack: 65,536 words refused" 'if (words_len > MOST_WORDS) {
        return 2;
    }
    if (out_len' 'if (words_len >= MOST_WORDS) {
        return 2;
    }
    if (out_len'
slip "pack: 65,537 words accepted" 'if (words_len > MOST_WORDS) {
        return 2;
    }
    if (out_len' 'if (words_len > MOST_WORDS + 1) {
        return 2;
    }
    if (out_len'
slip "pack: room before count" 'if (words_len > MOST_WORDS) {
        return 2;
    }
    if (out_len' 'if (out_len < worst_length(words_len)) { return 3; }
    if (words_len > MOST_WORDS) {
        return 2;
    }
    if (out_len'
slip "pack: one byte of room too few accepted" 'if (out_len < worst_length(words_len)) {' \
    'if (out_len + 1 < worst_length(words_len)) {'
slip "pack: exactly enough room refused" 'if (out_len < worst_length(words_len)) {' \
    'if (out_len <= worst_length(words_len)) {'
slip "worst length rounded down" 'return (count + 1) / 2;
}

static uint64_t worst_length(uint64_t count)
{
    return BLOCK_HEADER + code_bytes(count)' 'return (count + 1) / 2;
}

static uint64_t worst_length(uint64_t count)
{
    return BLOCK_HEADER + count / 2'
slip "pack: output used as scratch beyond the block" 'memcpy(out, block, length);' \
    'memcpy(out, block, worst_length(words_len));'
slip "pack: a refusal leaves the length" '*length = 0;
    if (refuse_tables' 'if (refuse_tables'
slip "pack: words changed" 'memcpy(out, block, length);' \
    'memcpy(out, block, length); if (words_len > 0) { ((uint64_t *)words)[0] ^= 1; }'
slip "unpack: a refusal leaves the count" '*count = 0;
    if (refuse_tables' 'if (refuse_tables'
slip "unpack: block before tables" '*count = 0;
    if (refuse_tables(fcm_len, dfcm_len)) {
        return 1;
    }
    uint64_t declared = 0;
    uint32_t refusal = refuse_block(block, block_len, &declared);
    if (refusal) {
        return refusal;
    }' '*count = 0;
    uint64_t declared = 0;
    uint32_t refusal = refuse_block(block, block_len, &declared);
    if (refusal) {
        return refusal;
    }
    if (refuse_tables(fcm_len, dfcm_len)) {
        return 1;
    }'
slip "unpack: exactly enough room refused" 'if (words_len < declared) {' 'if (words_len <= declared) {'
slip "unpack: one word of room too few accepted" 'if (words_len < declared) {' \
    'if (words_len + 1 < declared) {'
slip "unpack: words beyond the count cleared" '*count = declared;
    return 0;
}

/* ---- Exam' 'for (size_t i = declared; i < words_len; i++) { words[i] = 0; }
    *count = declared;
    return 0;
}

/* ---- Exam'
slip "unpack: words written before a refusal" 'if (words_len < declared) {' \
    'if (words_len < declared) { if (words_len > 0) { words[0] = 0; }'

# ---- Creating
slip "create: exam 0 accepted" 'if (exam == 0) {' 'if (0) {'
slip "create: t before exam" 'if (exam == 0) {' 'if (t > MOST_T) { return 7; } if (exam == 0) {'
slip "create: t = 17 accepted" 'if (t > MOST_T) {' 'if (t > MOST_T + 1) {'
slip "create: t cut to 16 bits" 'if (t > MOST_T) {' 'if ((uint16_t)t > MOST_T) {'
slip "create: t = 16 refused" 'if (t > MOST_T) {' 'if (t >= MOST_T) {'
slip "create: 31 bytes accepted" 'if (file_len < TRAILER) {' 'if (file_len < TRAILER - 1) {'
slip "create: 32 bytes refused" 'if (file_len < TRAILER) {' 'if (file_len <= TRAILER) {'
slip "create: rest of the buffer cleared" 'write_trailer(file, t, exam, 0, TRAILER);' \
    'memset(file, 0, file_len); write_trailer(file, t, exam, 0, TRAILER);'
slip "create: a refusal leaves the length" '*length = 0;
    if (exam == 0)' 'if (exam == 0)'
slip "create: edition 2" 'write_field(at + 4, 2, 1);' 'write_field(at + 4, 2, 2);'
slip "exam written with four bytes" 'write_field(at + 8, 8, exam);' 'write_field(at + 8, 8, (uint32_t)exam);'

# ---- Opening
slip "open: exam number forgotten" 'if (read_field(trailer + 8, 8) != exam) {' 'if (0) {'
slip "open: exam compared by four bytes" 'if (read_field(trailer + 8, 8) != exam) {' \
    'if (read_field(trailer + 8, 4) != (uint32_t)exam) {'
slip "open: exam 0 of a file accepted" 'if (read_field(trailer + 8, 8) == 0) {' 'if (0) {'
slip "open: 32 bytes refused" 'if (length < TRAILER) {' 'if (length <= TRAILER) {'
slip "open: 31 bytes looked at" 'if (length < TRAILER) {' 'if (length < TRAILER - 1) {'
slip "open: length beyond the buffer" 'if (length > file_len) {' 'if (length > file_len + 1) {'
slip "open: length as large as the buffer refused" 'if (length > file_len) {' 'if (length >= file_len) {'
slip "open: limit before the buffer" 'if (length < TRAILER) {
        return 4;' 'if (length > MOST_FILE_BYTES) { return 7; }
    if (length < TRAILER) {
        return 4;'
slip "open: file at the limit refused" 'if (length > MOST_FILE_BYTES) {' 'if (length >= MOST_FILE_BYTES) {'
slip "open: file over the limit accepted" 'if (length > MOST_FILE_BYTES) {' \
    'if (length > MOST_FILE_BYTES + 1) {'
slip "open: length cut to 32 bits" 'if (length < TRAILER) {
        return 4;' 'length = (uint32_t)length;
    if (length < TRAILER) {
        return 4;'
slip "open: three bytes of the mark compared" 'memcmp(trailer, "coil", 4) == 0' \
    'memcmp(trailer, "coil", 3) == 0'
slip "open: mark not compared" 'memcmp(trailer, "coil", 4) == 0' '1'
slip "open: edition not compared" '&& edition == 1' '&& edition >= 1'
slip "open: t = 17 accepted" '&& t <= MOST_T' '&& t <= MOST_T + 1'
slip "open: t = 16 refused" '&& t <= MOST_T' '&& t < MOST_T'
slip "open: t read from one byte" 'uint64_t t = read_field(trailer + 6, 2);' \
    'uint64_t t = read_field(trailer + 6, 1);'
slip "open: 1,025 entries accepted" '&& entries <= MOST_ENTRIES' '&& entries <= MOST_ENTRIES + 1'
slip "open: 1,024 entries refused" '&& entries <= MOST_ENTRIES' '&& entries < MOST_ENTRIES'
slip "open: distance not compared with the entries" '&& distance == TRAILER + ENTRY * entries' \
    '&& distance >= TRAILER + ENTRY * entries'
slip "open: distance beyond the file" '&& distance <= length' ''
slip "open: length field not compared" '&& read_field(trailer + 24, 8) == length' ''
slip "open: length field read from four bytes" 'read_field(trailer + 24, 8) == length' \
    'read_field(trailer + 24, 4) == length'
slip "open: equal slots accepted" 'entry_slot(file, f, i) <= entry_slot' 'entry_slot(file, f, i) < entry_slot'
slip "open: order of the first two slots not looked at" 'if (i > 0 && entry_slot' 'if (i > 1 && entry_slot'
slip "open: offsets not compared" 'if (entry_offset(file, f, i) != next_offset) {' 'if (0) {'
slip "open: first offset not compared" 'if (entry_offset(file, f, i) != next_offset) {' \
    'if (i > 0 && entry_offset(file, f, i) != next_offset) {'
slip "open: block of 7 bytes accepted" 'if (entry_length(file, f, i) < BLOCK_HEADER) {' \
    'if (entry_length(file, f, i) < BLOCK_HEADER - 1) {'
slip "open: block of 8 bytes refused" 'if (entry_length(file, f, i) < BLOCK_HEADER) {' \
    'if (entry_length(file, f, i) <= BLOCK_HEADER) {'
slip "open: ends of blocks wrap at 32 bits" \
    'next_offset = entry_offset(file, f, i) + entry_length(file, f, i);' \
    'next_offset = (uint32_t)(entry_offset(file, f, i) + entry_length(file, f, i));'
slip "open: last end not compared" 'return next_offset == f->directory;' 'return next_offset <= f->directory;'
slip "open: bytes in front of an empty directory accepted" 'return next_offset == f->directory;' \
    'return f->entries == 0 || next_offset == f->directory;'
slip "open: exam before trailer" 'if (!trailer_is_right(trailer, length)) {' \
    'if (read_field(trailer + 8, 8) != exam) { return 8; } if (!trailer_is_right(trailer, length)) {'
slip "open: directory before exam" 'if (read_field(trailer + 8, 8) != exam) {' \
    'f->entries = read_field(trailer + 20, 4); f->directory = length - read_field(trailer + 16, 4);
    if (!directory_is_right(file, f)) { return 9; } if (read_field(trailer + 8, 8) != exam) {'

# ---- Finding and fetching
slip "find: next slot taken for a missing one" 'if (entry_slot(file, f, i) == slot) {' \
    'if (entry_slot(file, f, i) >= slot) {'
slip "find: slots compared by two bytes" 'if (entry_slot(file, f, i) == slot) {' \
    'if ((uint16_t)entry_slot(file, f, i) == (uint16_t)slot) {'
slip "find: slot 0 refused" 'if (entry_slot(file, f, i) == slot) {' \
    'if (slot != 0 && entry_slot(file, f, i) == slot) {'
slip "find: last entry not looked at" 'for (uint64_t i = 0; i < f->entries; i++) {
        if (entry_slot(file, f, i) == slot)' 'for (uint64_t i = 0; i + 1 < f->entries; i++) {
        if (entry_slot(file, f, i) == slot)'
slip "find: a refusal leaves the offset" '*offset = 0;
' ''
slip "find: a refusal leaves the block length" '*block_length = 0;
' ''
slip "find: length one less" '*block_length = entry_length(file, &f, index);' \
    '*block_length = entry_length(file, &f, index) - 1;'
slip "fetch: a refusal leaves the count" '*count = 0;
    uint32_t refusal = find_slot' 'uint32_t refusal = find_slot'
slip "fetch: tables of any size" 'if (refuse_file_tables(&f, fcm_len, dfcm_len)) {' \
    'if (refuse_tables(fcm_len, dfcm_len)) {'
slip "fetch: tables before slot" '*count = 0;
    uint32_t refusal = find_slot' '*count = 0; if (refuse_tables(fcm_len, dfcm_len)) { return 1; }
    uint32_t refusal = find_slot'
slip "fetch: block before tables" 'if (refuse_file_tables(&f, fcm_len, dfcm_len)) {' \
    'uint64_t declared; refusal = refuse_block(file + entry_offset(file, &f, index),
        entry_length(file, &f, index), &declared); if (refusal) { return refusal; }
    if (refuse_file_tables(&f, fcm_len, dfcm_len)) {'
slip "fetch: first block for every slot" \
    'return ref_unpack(file + entry_offset(file, &f, index), entry_length(file, &f, index),' \
    'return ref_unpack(file, entry_length(file, &f, 0),'

# ---- Appending
slip "append: slot before full" 'if (f->entries >= MOST_ENTRIES) {' \
    'if (f->entries > 0 && slot <= entry_slot(file, f, f->entries - 1)) { return 11; }
    if (f->entries >= MOST_ENTRIES) {'
slip "append: 1,025 entries" 'if (f->entries >= MOST_ENTRIES) {' 'if (f->entries > MOST_ENTRIES) {'
slip "append: 1,023 entries are full" 'if (f->entries >= MOST_ENTRIES) {' \
    'if (f->entries + 1 >= MOST_ENTRIES) {'
slip "append: last slot again" 'slot <= entry_slot(file, f, f->entries - 1)' \
    'slot < entry_slot(file, f, f->entries - 1)'
slip "append: compared with the first slot" 'slot <= entry_slot(file, f, f->entries - 1)' \
    'slot <= entry_slot(file, f, 0)'
slip "append: slot 0 refused in an empty file" 'if (f->entries > 0 && slot <= entry_slot' \
    'if (slot == 0) { return 11; } if (f->entries > 0 && slot <= entry_slot'
slip "append: tables before slot" 'if (f->entries > 0 && slot <= entry_slot' \
    'if (refuse_file_tables(f, fcm_len, dfcm_len)) { return 1; } if (f->entries > 0 && slot <= entry_slot'
slip "append: tables of any size" 'if (refuse_file_tables(f, fcm_len, dfcm_len)) {' \
    'if (refuse_tables(fcm_len, dfcm_len)) {'
slip "append: room before count" 'if (words_len > MOST_WORDS) {
        return 2;
    }
    uint64_t limit' 'if (bench_len < worst_length(words_len)) { return 3; }
    if (words_len > MOST_WORDS) {
        return 2;
    }
    uint64_t limit'
slip "append: count before tables" 'if (refuse_file_tables(f, fcm_len, dfcm_len)) {' \
    'if (words_len > MOST_WORDS) { return 2; } if (refuse_file_tables(f, fcm_len, dfcm_len)) {'
slip "append: room of the entry forgotten" 'if (length + ENTRY + worst_length(words_len) > limit) {' \
    'if (length + worst_length(words_len) > limit) {'
slip "append: exactly enough room refused" 'if (length + ENTRY + worst_length(words_len) > limit) {' \
    'if (length + ENTRY + worst_length(words_len) >= limit) {'
slip "append: one byte of room too few accepted" 'if (length + ENTRY + worst_length(words_len) > limit) {' \
    'if (length + ENTRY + worst_length(words_len) > limit + 1) {'
slip "append: file limit forgotten" \
    'uint64_t limit = file_len < MOST_FILE_BYTES ? file_len : MOST_FILE_BYTES;' \
    'uint64_t limit = file_len;'
slip "append: bench one byte short accepted" 'if (bench_len < worst_length(words_len)) {' \
    'if (bench_len + 1 < worst_length(words_len)) {'
slip "append: exactly enough bench refused" 'if (bench_len < worst_length(words_len)) {' \
    'if (bench_len <= worst_length(words_len)) {'
slip "append: a refusal leaves the length" '*new_length = 0;
    uint32_t refusal = open_file' 'uint32_t refusal = open_file'
slip "append: a refusal clears a table" 'refusal = refuse_append(file' \
    'fcm[0] = fcm_len > 0 ? 0 : fcm[0]; refusal = refuse_append(file'
slip "append: packs into the bench before a refusal" 'refusal = refuse_append(file' \
    'if (bench_len > 0) { bench[0] = 0; } refusal = refuse_append(file'
slip "append: bench not filled" \
    'size_t block_length = pack_now(words, words_len, fcm, dfcm, fcm_len, bench, more_zero_bits);' \
    'uint8_t *own = room_for(worst_length(words_len));
    size_t block_length = pack_now(words, words_len, fcm, dfcm, fcm_len, own, more_zero_bits);
    *new_length = put_block_in(file, &f, exam, slot, own, block_length); return 0;'
slip "append: offset of the old end" 'write_field(file + at + 4, 4, f->directory);' \
    'write_field(file + at + 4, 4, at);'
slip "append: entry length with its entry" 'write_field(file + at + 8, 4, block_length);' \
    'write_field(file + at + 8, 4, block_length + ENTRY);'
slip "append: entries not counted" 'exam, f->entries + 1, at + TRAILER' 'exam, f->entries, at + TRAILER'
slip "append: t lost" 'write_trailer(file + at, f->t, exam' 'write_trailer(file + at, 10, exam'
slip "append: old directory lost" 'memcpy(file + at, old_directory, old_directory_bytes);' ''
slip "append: directory moved forwards over itself" \
    'memcpy(old_directory, file + f->directory, old_directory_bytes);' \
    'for (size_t k = 0; k < old_directory_bytes; k++)
        { file[f->directory + block_length + k] = file[f->directory + k]; }
    memcpy(old_directory, file + f->directory + block_length, old_directory_bytes);'
slip "append: block written before the directory was moved" \
    'memcpy(old_directory, file + f->directory, old_directory_bytes);' \
    'memcpy(file + f->directory, block, block_length);
    memcpy(old_directory, file + f->directory, old_directory_bytes);'
slip "append: 65,536 words refused" 'if (words_len > MOST_WORDS) {
        return 2;
    }
    uint64_t limit' 'if (words_len >= MOST_WORDS) {
        return 2;
    }
    uint64_t limit'
slip "append: 65,537 words accepted" 'if (words_len > MOST_WORDS) {
        return 2;
    }
    uint64_t limit' 'if (words_len > MOST_WORDS + 1) {
        return 2;
    }
    uint64_t limit'
slip "append: rest of the buffer changed" 'free(old_directory);' \
    'free(old_directory); file[at + TRAILER] = 0;'
slip "append: length without the trailer" 'return at + TRAILER;' 'return at;'

# ---- Replacing
slip "replace: own offset shifted too" 'write_field(directory + ENTRY * index + 8, 4, new_size);' \
    'write_field(directory + ENTRY * index + 8, 4, new_size);
    write_field(directory + ENTRY * index + 4, 4, offset - old_size + new_size);'
slip "replace: later offsets not shifted" \
    'write_field(directory + ENTRY * later + 4, 4, old_offset - old_size + new_size);' ''
slip "replace: the last offset not shifted" 'later = index + 1; later < found->entries; later++' \
    'later = index + 1; later + 1 < found->entries; later++'
slip "replace: earlier offsets shifted" 'later = index + 1; later < found->entries; later++' \
    'later = 1; later < found->entries; later++'
slip "replace: shifted by the new size" 'old_offset - old_size + new_size' 'old_offset + new_size'
slip "replace: old size kept in the entry" 'write_field(directory + ENTRY * index + 8, 4, new_size);' ''
slip "replace: old length left in the trailer" 'write_field(trailer + 24, 8, new_end);' ''
slip "replace: old length answered" 'free(rest);
    return new_end;' 'free(rest);
    return length;'
slip "replace: freed bytes left" 'file[freed] = 0;' ''
slip "replace: the old length field left behind" 'freed = new_end; freed < length; freed++' \
    'freed = new_end; freed + 8 < length; freed++'
slip "replace: zeroed beyond the old end" 'freed = new_end; freed < length; freed++' \
    'freed = new_end; freed <= length; freed++'
slip "replace: zeroed beyond a longer file" 'free(rest);' 'if (new_end > length) { file[new_end] = 0; }
    free(rest);'
slip "replace: later blocks moved up over themselves" \
    'memcpy(rest + new_size, file + offset + old_size, behind);' \
    'for (size_t k = 0; k < behind; k++) { file[offset + new_size + k] = file[offset + old_size + k]; }
    memcpy(rest + new_size, file + offset + new_size, behind);'
slip "replace: later blocks moved down over themselves" \
    'memcpy(rest + new_size, file + offset + old_size, behind);' \
    'for (size_t k = behind; k-- > 0;) { file[offset + new_size + k] = file[offset + old_size + k]; }
    memcpy(rest + new_size, file + offset + new_size, behind);'
slip "replace: block written before the others were moved" 'memcpy(rest, block, new_size);' \
    'memcpy(rest, block, new_size); memcpy(file + offset, block, new_size);'
slip "replace: old block must be well formed" 'refusal = refuse_replace(&found' \
    'uint64_t count; refusal = refuse_block(file + entry_offset(file, &found, index),
        entry_length(file, &found, index), &count); if (refusal) { return refusal; }
    refusal = refuse_replace(&found'
slip "replace: only the last slot" 'refusal = refuse_replace(&found' \
    'if (index + 1 < found.entries) { return 11; } refusal = refuse_replace(&found'
slip "replace: a full file refused" 'refusal = refuse_replace(&found' \
    'if (found.entries >= MOST_ENTRIES) { return 12; } refusal = refuse_replace(&found'
slip "replace: tables before slot" '*new_length = 0;
    uint32_t refusal = find_slot' '*new_length = 0;
    uint32_t refusal = open_file(file, file_len, length, exam, &found);
    if (!refusal && refuse_file_tables(&found, fcm_len, dfcm_len)) { return 1; }
    refusal = find_slot'
slip "replace: tables of any size" 'if (refuse_file_tables(found, fcm_len, dfcm_len)) {' \
    'if (refuse_tables(fcm_len, dfcm_len)) {'
slip "replace: count before tables" 'if (refuse_file_tables(found, fcm_len, dfcm_len)) {' \
    'if (words_len > MOST_WORDS) { return 2; } if (refuse_file_tables(found, fcm_len, dfcm_len)) {'
slip "replace: room before count" 'if (words_len > MOST_WORDS) {
        return 2;
    }
    uint64_t at_worst' 'if (worst_length(words_len) > bench_len) { return 3; }
    if (words_len > MOST_WORDS) {
        return 2;
    }
    uint64_t at_worst'
slip "replace: 65,536 words refused" 'if (words_len > MOST_WORDS) {
        return 2;
    }
    uint64_t at_worst' 'if (words_len >= MOST_WORDS) {
        return 2;
    }
    uint64_t at_worst'
slip "replace: 65,537 words accepted" 'if (words_len > MOST_WORDS) {
        return 2;
    }
    uint64_t at_worst' 'if (words_len > MOST_WORDS + 1) {
        return 2;
    }
    uint64_t at_worst'
slip "replace: room asked for an entry" 'length - old_size + worst_length(words_len)' \
    'length - old_size + ENTRY + worst_length(words_len)'
slip "replace: old block not taken off the room" 'length - old_size + worst_length(words_len)' \
    'length + worst_length(words_len)'
slip "replace: one byte of room too few accepted" 'if (at_worst > file_len) {' 'if (at_worst > file_len + 1) {'
slip "replace: exactly enough room refused" 'if (at_worst > file_len) {' 'if (at_worst >= file_len) {'
slip "replace: file limit forgotten" 'if (at_worst > MOST_FILE_BYTES) {' 'if (0) {'
slip "replace: file limit exactly refused" 'if (at_worst > MOST_FILE_BYTES) {' \
    'if (at_worst >= MOST_FILE_BYTES) {'
slip "replace: bench one byte short accepted" 'if (worst_length(words_len) > bench_len) {' \
    'if (worst_length(words_len) > bench_len + 1) {'
slip "replace: exactly enough bench refused" 'if (worst_length(words_len) > bench_len) {' \
    'if (worst_length(words_len) >= bench_len) {'
slip "replace: a refusal leaves the length" '*new_length = 0;
    uint32_t refusal = find_slot' 'uint32_t refusal = find_slot'
slip "replace: a refusal clears a table" 'refusal = refuse_replace(&found' \
    'fcm[0] = fcm_len > 0 ? 0 : fcm[0]; refusal = refuse_replace(&found'
slip "replace: packs into the bench before a refusal" 'refusal = refuse_replace(&found' \
    'if (bench_len > 0) { bench[0] = 0; } refusal = refuse_replace(&found'
slip "replace: tables left as they were" 'size_t new_size = pack_now(words, words_len, fcm, dfcm, fcm_len, bench, more_zero_bits);' \
    'size_t new_size = pack_now(words, words_len, room_for(8 * fcm_len), room_for(8 * fcm_len), fcm_len, bench,
                                more_zero_bits);'
slip "replace: bench not filled" 'size_t new_size = pack_now(words, words_len, fcm, dfcm, fcm_len, bench, more_zero_bits);
    *new_length = put_block_in_place(file, length, &found, index, bench, new_size);' \
    'uint8_t *own = room_for(worst_length(words_len));
    size_t new_size = pack_now(words, words_len, fcm, dfcm, fcm_len, own, more_zero_bits);
    *new_length = put_block_in_place(file, length, &found, index, own, new_size);'

# ---- Appending a list
slip "append_all: goes on after a refusal" 'bench, bench_len, &reached);
        if (refusal) {
            return refusal;
        }' 'bench, bench_len, new_length);
        if (refusal) { *new_length = reached; continue; }
        reached = *new_length;'
slip "append_all: goes on after a record beyond the words" 'return 15;' 'continue;'
slip "append_all: what went in is taken back" 'uint32_t refusal = open_file(file, file_len, length, exam, &f);
    if (refusal) {
        return refusal;
    }
    for (' 'uint32_t refusal = open_file(file, file_len, length, exam, &f);
    if (refusal) {
        return refusal;
    }
    static int trying;
    if (!trying) {
        uint8_t *try_file = memcpy(room_for(file_len), file, file_len);
        trying = 1;
        refusal = ref_append_all(try_file, file_len, length, exam, records, records_len, words, words_len,
            room_for(8 * fcm_len), fcm_len, room_for(8 * dfcm_len), dfcm_len, room_for(bench_len), bench_len,
            appended, new_length);
        trying = 0;
        *appended = 0;
        *new_length = 0;
        if (refusal) { return refusal; }
    }
    for ('
slip "append_all: a later refusal is answered as done" 'bench, bench_len, &reached);
        if (refusal) {' 'bench, bench_len, &reached);
        if (refusal && i > 0) { return 0; }
        if (refusal) {'
slip "append_all: counts the refused record" 'bench, bench_len, &reached);
        if (refusal) {' 'bench, bench_len, &reached);
        if (refusal) { *appended += i > 0;'
slip "append_all: counts the record beyond the words" 'return 15;' '*appended += i > 0; return 15;'
slip "append_all: counts the first record, refused" 'bench, bench_len, &reached);
        if (refusal) {' 'bench, bench_len, &reached);
        if (refusal) { *appended += i == 0;'
slip "append_all: counts one too few" '*appended = i + 1;' '*appended = i;'
slip "append_all: counts all entries of the file" '*appended = i + 1;' '*appended = f.entries + i + 1;'
slip "append_all: no count kept at a refusal" 'bench, bench_len, &reached);
        if (refusal) {' 'bench, bench_len, &reached);
        if (refusal) { *appended = 0;'
slip_of_one_and_both "append_all: length 0 after a later refusal" '*new_length = reached;
    }' '}'
slip "append_all: length before the list after a later refusal" 'bench, bench_len, &reached);
        if (refusal) {' 'bench, bench_len, &reached);
        if (refusal) { *new_length = i > 0 ? length : 0;'
slip "append_all: length kept where the first record is refused" 'for (size_t i = 0; i < records_len; i++) {
        if (beyond_the_words' '*new_length = length;
    for (size_t i = 0; i < records_len; i++) {
        if (beyond_the_words'
slip "append_all: length kept where the file does not open" 'size_t reached = length;
    *new_length = 0;' 'size_t reached = length;
    *new_length = length;'
slip "append_all: count left where none went in" '*appended = 0;
    uint32_t refusal = open_file' 'uint32_t refusal = open_file'
slip_of_one_and_both "append_all: last record skipped" 'for (size_t i = 0; i < records_len; i++)' \
    'for (size_t i = 0; i + 1 < records_len; i++)'
slip "append_all: first record skipped" 'for (size_t i = 0; i < records_len; i++)' \
    'for (size_t i = 1; i < records_len; i++)'
slip "append_all: one record too many" 'for (size_t i = 0; i < records_len; i++)' \
    'for (size_t i = 0; i <= records_len; i++)'
slip "append_all: number of records cut to 32 bits" 'for (size_t i = 0; i < records_len; i++)' \
    'for (size_t i = 0; i < (uint32_t)records_len; i++)'
slip_of_one_and_both "append_all: words taken from the start of the buffer" \
    'words + records[i].first, records[i].count' 'words, records[i].count'
slip "append_all: words taken from behind the record before" 'words + records[i].first, records[i].count' \
    'words + (i > 0 ? records[i - 1].first + records[i - 1].count <= words_len - records[i].count
        ? records[i - 1].first + records[i - 1].count : records[i].first : records[i].first), records[i].count'
slip "append_all: all the rest of the words" 'words + records[i].first, records[i].count' \
    'words + records[i].first, words_len - records[i].first'
slip "append_all: slots counted up from the first" 'exam, records[i].slot,' 'exam, records[0].slot + (uint32_t)i,'
slip "append_all: 15 by the count alone" \
    'return record->first > words_len || record->count > words_len - record->first;' 'return record->count > words_len;'
slip "append_all: 15 by the first word alone" \
    'return record->first > words_len || record->count > words_len - record->first;' 'return record->first > words_len;'
slip "append_all: the sum wraps" 'return record->first > words_len || record->count > words_len - record->first;' \
    'return record->first + record->count > words_len;'
slip "append_all: the difference wraps" 'return record->first > words_len || record->count' 'return record->count'
slip "append_all: the end of the words refused" 'record->count > words_len - record->first' \
    'record->count >= words_len - record->first'
slip "append_all: one word beyond the words accepted" 'record->count > words_len - record->first' \
    'record->count > words_len - record->first + 1'
slip "append_all: no words at the end refused" 'return record->first > words_len ||' \
    'return record->first >= words_len ||'
slip "append_all: no words beyond the end accepted" 'return record->first > words_len ||' \
    'return record->count == 0 ? 0 : record->first > words_len ||'
slip "append_all: first word cut to 32 bits" \
    'return record->first > words_len || record->count > words_len - record->first;' \
    'return (uint32_t)record->first > words_len || record->count > words_len - (uint32_t)record->first;'
slip "append_all: count cut to 32 bits" 'record->count > words_len - record->first' \
    '(uint32_t)record->count > words_len - record->first'
slip_of_one_and_both "append_all: 12 before 15" 'if (beyond_the_words(&records[i], words_len)) {' \
    'if (open_file(file, file_len, reached, exam, &f) == 0 && f.entries >= MOST_ENTRIES) { return 12; }
        if (beyond_the_words(&records[i], words_len)) {'
slip "append_all: 11 before 15" 'if (beyond_the_words(&records[i], words_len)) {' \
    'if (open_file(file, file_len, reached, exam, &f) == 0 && f.entries > 0 && f.entries < MOST_ENTRIES
            && records[i].slot <= entry_slot(file, &f, f.entries - 1)) { return 11; }
        if (beyond_the_words(&records[i], words_len)) {'
slip "append_all: 2 before 15" 'if (beyond_the_words(&records[i], words_len)) {' \
    'if (records[i].count > MOST_WORDS) { return 2; }
        if (beyond_the_words(&records[i], words_len)) {'
slip "append_all: 15 before open" 'opened_file f;
    size_t reached = length;
    *new_length = 0;
    *appended = 0;' 'opened_file f;
    size_t reached = length;
    *new_length = 0;
    *appended = 0;
    if (records_len > 0 && beyond_the_words(&records[0], words_len)) { return 15; }'
slip "append_all: 15 of any record before the first goes in" 'for (size_t i = 0; i < records_len; i++) {
        if (beyond_the_words' 'for (size_t i = 0; i < records_len; i++) {
        if (beyond_the_words(&records[i], words_len)) { return 15; }
    }
    for (size_t i = 0; i < records_len; i++) {
        if (beyond_the_words'
slip "append_all: 11 of any record before the first goes in" 'for (size_t i = 0; i < records_len; i++) {
        if (beyond_the_words' 'for (size_t i = 1; i < records_len; i++) {
        if (records[i].slot <= records[i - 1].slot) { return 11; }
    }
    for (size_t i = 0; i < records_len; i++) {
        if (beyond_the_words'
slip "append_all: 12 before the first goes in" 'for (size_t i = 0; i < records_len; i++) {
        if (beyond_the_words' 'if (f.entries + records_len > MOST_ENTRIES) { return 12; }
    for (size_t i = 0; i < records_len; i++) {
        if (beyond_the_words'
slip "append_all: room for all before the first goes in" 'for (size_t i = 0; i < records_len; i++) {
        if (beyond_the_words' 'size_t asked = length;
    for (size_t i = 0; i < records_len && !beyond_the_words(&records[i], words_len); i++) {
        asked += ENTRY + worst_length(records[i].count);
    }
    if (asked > file_len) { return 3; }
    for (size_t i = 0; i < records_len; i++) {
        if (beyond_the_words'
slip "append_all: tables before 15, and of a list without a record" 'for (size_t i = 0; i < records_len; i++) {
        if (beyond_the_words' 'if (refuse_file_tables(&f, fcm_len, dfcm_len)) { return 1; }
    for (size_t i = 0; i < records_len; i++) {
        if (beyond_the_words'
slip "append_all: a list without a record answers length 0" '*new_length = reached;
    return 0;' 'return 0;'
slip_of_one_and_both "append_all: a list without a record is not opened" 'opened_file f;
    size_t reached = length;' 'opened_file f;
    if (records_len == 0) { *appended = 0; *new_length = length; return 0; }
    size_t reached = length;'
slip "append_all: a list without a record is refused" 'opened_file f;
    size_t reached = length;' 'opened_file f;
    if (records_len == 0) { *appended = 0; *new_length = 0; return 15; }
    size_t reached = length;'
slip "append_all: a list without a record clears a table" '*new_length = reached;
    return 0;' '*new_length = reached;
    if (records_len == 0) { memset(fcm, 0, 8 * fcm_len); }
    return 0;'
slip "append_all: a refused record clears a table" 'bench, bench_len, &reached);
        if (refusal) {' 'bench, bench_len, &reached);
        if (refusal) { memset(dfcm, 0, 8 * dfcm_len);'
slip "append_all: a record beyond the words clears a table" 'return 15;' 'memset(fcm, 0, 8 * fcm_len); return 15;'
slip "append_all: a refused record is packed into the bench" 'bench, bench_len, &reached);
        if (refusal) {' 'bench, bench_len, &reached);
        if (refusal) { if (bench_len >= 4) { write_field(bench, 4, records[i].count); }'
slip "append_all: a record beyond the words writes the bench" 'return 15;' \
    'if (bench_len > 0) { bench[0]++; } return 15;'
slip "append_all: a refused record changes the file" 'bench, bench_len, &reached);
        if (refusal) {' 'bench, bench_len, &reached);
        if (refusal) { if (*new_length > 0 && *new_length < file_len) { file[*new_length]++; }'
slip "append_all: bench cleared beyond the last block" '*new_length = reached;
    return 0;' '*new_length = reached;
    for (size_t k = records_len > 0 && bench_len >= 8 ? read_field(bench + 4, 4) : bench_len; k < bench_len; k++)
        { bench[k] = 0; }
    return 0;'
slip "append_all: tables cleared after the last record" '*new_length = reached;
    return 0;' '*new_length = reached;
    if (records_len > 0) { memset(fcm, 0, 8 * fcm_len); memset(dfcm, 0, 8 * dfcm_len); }
    return 0;'
slip "append_all: records changed" '*appended = i + 1;' '*appended = i + 1; ((ref_record *)records)[i].first = 0;'

# ---- Salvaging: which blocks are kept
slip_of_one_and_both "salvage: the stated length is trusted" 'if (refuse_block(bytes, stated, &count)) {' \
    'if (stated < BLOCK_HEADER) {'
slip_of_one_and_both "salvage: a wrong filler is taken" 'if (refuse_block(bytes, stated, &count)) {' \
    'if (refuse_block(bytes, stated, &count) % 6) {'
slip "salvage: any count is taken" 'if (refuse_block(bytes, stated, &count)) {' \
    'if (refuse_block(bytes, stated, &count) > 2) {'
slip "salvage: all that is left is checked" 'if (refuse_block(bytes, stated, &count)) {' \
    'if (refuse_block(bytes, left, &count)) {'
slip "salvage: the stated length may be beyond the end" 'if (stated > left) {' 'if (0) {'
slip "salvage: the stated length may be one byte beyond the end" 'if (stated > left) {' 'if (stated > left + 1) {'
slip "salvage: a block up to the end is not taken" 'if (stated > left) {' 'if (stated >= left) {'
slip "salvage: the length is read from two bytes" 'uint64_t stated = read_field(bytes + 4, 4);' \
    'uint64_t stated = read_field(bytes + 4, 2);'
slip "salvage: 7 bytes are looked at" 'if (left < BLOCK_HEADER) {' 'if (left < BLOCK_HEADER - 1) {'
slip "salvage: the last 8 bytes are not looked at" 'if (left < BLOCK_HEADER) {' 'if (left <= BLOCK_HEADER) {'
slip "salvage: the last 32 bytes are taken for a trailer" 'row_of_blocks row = whole_blocks(old, old_len);' \
    'row_of_blocks row = whole_blocks(old, old_len < TRAILER ? 0 : old_len - TRAILER);'
slip_of_one_and_both "salvage: takes a 1,025th block" 'while (row.blocks < MOST_ENTRIES) {' \
    'while (row.blocks < MOST_ENTRIES + 1) {'
slip "salvage: takes any number of blocks" 'while (row.blocks < MOST_ENTRIES) {' 'while (1) {'
slip_of_one_and_both "salvage: takes 1,023 blocks at most" 'while (row.blocks < MOST_ENTRIES) {' \
    'while (row.blocks + 1 < MOST_ENTRIES) {'
slip_of_one_and_both "salvage: a refused block is passed by" 'row_of_blocks row = whole_blocks(old, old_len);' \
    'uint8_t *taken = room_for(old_len);
    size_t at = 0, end = 0;
    while (old_len - at >= BLOCK_HEADER) {
        uint64_t stated = read_field(old + at + 4, 4);
        if (stated < BLOCK_HEADER || stated > old_len - at) { break; }
        if (whole_block_at(old + at, old_len - at)) { memcpy(taken + end, old + at, stated); end += stated; }
        at += stated;
    }
    old = taken;
    row_of_blocks row = whole_blocks(taken, end);'
slip "salvage: the next block is looked for byte by byte" 'row_of_blocks row = whole_blocks(old, old_len);' \
    'uint8_t *taken = room_for(old_len < MOST_FILE_BYTES ? old_len : 0);
    size_t end = 0;
    for (size_t at = 0, size; at < old_len && old_len < MOST_FILE_BYTES; at += size > 0 ? size : 1) {
        size = whole_block_at(old + at, old_len - at);
        memcpy(taken + end, old + at, size);
        end += size;
    }
    old = taken;
    row_of_blocks row = whole_blocks(taken, end);'
slip "salvage: nothing kept is refused" 'needed, file_len);
    if (refusal) {' 'needed, file_len);
    if (!refusal && row.blocks == 0) { return 4; }
    if (refusal) {'
slip "salvage: old bytes too short for a file are refused" 'needed, file_len);
    if (refusal) {' 'needed, file_len);
    if (!refusal && old_len < TRAILER) { return 4; }
    if (refusal) {'
slip "salvage: an intact file is taken as it is" 'write_salvaged(file, old, row, needed, new_exam, new_t);' \
    'write_salvaged(file, old, row, needed, new_exam, new_t);
    if (ref_open(old, old_len, old_len, new_exam) == 0) { memcpy(file, old, needed); }'
slip "salvage: old length cut to 32 bits" 'row_of_blocks row = whole_blocks(old, old_len);' \
    'row_of_blocks row = whole_blocks(old, (uint32_t)old_len);'

# ---- Salvaging: the new file
slip "salvage: blocks are not copied" 'memcpy(file, old, row.bytes);' ''
slip_of_one_and_both "salvage: slots from 1" 'write_field(entry, 4, slot);' 'write_field(entry, 4, slot + 1);'
slip "salvage: every offset is 0" 'write_field(entry + 4, 4, offset);' 'write_field(entry + 4, 4, 0);'
slip_of_one_and_both "salvage: an offset is where the block ends" 'write_field(entry + 4, 4, offset);' \
    'write_field(entry + 4, 4, offset + size);'
slip "salvage: entry length without the header" 'write_field(entry + 8, 4, size);' \
    'write_field(entry + 8, 4, size - BLOCK_HEADER);'
slip "salvage: entry length with two bytes" 'write_field(entry + 8, 4, size);' \
    'write_field(entry + 8, 4, (uint16_t)size);'
slip "salvage: entries not counted" 'write_trailer(entry, new_t, new_exam, row.blocks, needed);' \
    'write_trailer(entry, new_t, new_exam, 0, needed);'
slip_of_one_and_both "salvage: edition 2" 'write_trailer(entry, new_t, new_exam, row.blocks, needed);' \
    'write_trailer(entry, new_t, new_exam, row.blocks, needed); write_field(entry + 4, 2, 2);'
slip_of_one_and_both "salvage: keeps the old exam number" 'write_salvaged(file, old, row, needed, new_exam, new_t);' \
    'const uint8_t *end = old_len < TRAILER ? NULL : old + old_len - TRAILER;
    if (end != NULL && memcmp(end, "coil", 4) == 0) { new_exam = read_field(end + 8, 8); }
    write_salvaged(file, old, row, needed, new_exam, new_t);'
slip "salvage: keeps the old t" 'write_salvaged(file, old, row, needed, new_exam, new_t);' \
    'const uint8_t *end = old_len < TRAILER ? NULL : old + old_len - TRAILER;
    if (end != NULL && memcmp(end, "coil", 4) == 0) { new_t = (uint32_t)read_field(end + 6, 2); }
    write_salvaged(file, old, row, needed, new_exam, new_t);'
slip "salvage: states a length without the trailer" 'write_trailer(entry, new_t, new_exam, row.blocks, needed);' \
    'write_trailer(entry, new_t, new_exam, row.blocks, needed - TRAILER);'
slip_of_one_and_both "salvage: rest of the buffer cleared" '*new_length = needed;' \
    'memset(file + needed, 0, file_len - needed);
    *new_length = needed;'
slip "salvage: old bytes cleared" '*new_length = needed;' 'memset((uint8_t *)old, 0, row.bytes);
    *new_length = needed;'

# ---- Salvaging: numbers and refusals
slip "salvage: length without the trailer" '*new_length = needed;' '*new_length = needed - TRAILER;'
slip_of_one_and_both "salvage: kept counts the refused block" '*kept = row.blocks;' \
    '*kept = row.blocks + (old_len > row.bytes);'
slip_of_one_and_both "salvage: left over counts the directory" '*left_over = old_len - row.bytes;' \
    '*left_over = old_len - row.bytes + ENTRY * row.blocks;'
slip "salvage: left over without the old directory and trailer" '*left_over = old_len - row.bytes;' \
    '*left_over = old_len < needed ? 0 : old_len - needed;'
slip "salvage: left over is what was kept" '*left_over = old_len - row.bytes;' '*left_over = row.bytes;'
slip "salvage: left over cut to 32 bits" '*left_over = old_len - row.bytes;' \
    '*left_over = (uint32_t)(old_len - row.bytes);'
slip_of_one_and_both "salvage: renumbered 0" '*renumbered = 1;' ''
slip_of_one_and_both "salvage: renumbered 0 where nothing is kept" '*renumbered = 1;' '*renumbered = row.blocks > 0;'
slip "salvage: renumbered 1 on a refusal" '*renumbered = 0;' '*renumbered = 1;'
slip "salvage: a refusal leaves the length" '*new_length = 0;
    *kept = 0;' '*kept = 0;'
slip "salvage: a refusal leaves kept" '*kept = 0;' ''
slip "salvage: a refusal leaves left over" '*left_over = 0;' ''
slip "salvage: a refusal answers the room" 'needed, file_len);
    if (refusal) {' 'needed, file_len);
    if (refusal == 3) { *new_length = needed; }
    if (refusal) {'
slip "salvage: a refusal answers how many would be kept" 'needed, file_len);
    if (refusal) {' 'needed, file_len);
    *kept = row.blocks;
    if (refusal) {'
slip "salvage: a refusal leaves blocks in the buffer" 'uint32_t refusal = refuse_salvage(' \
    'if (row.bytes <= file_len) { memcpy(file, old, row.bytes); }
    uint32_t refusal = refuse_salvage('
slip "salvage: exam 0 accepted" 'if (new_exam == 0) {' 'if (0) {'
slip "salvage: exam looked at by four bytes" 'if (new_exam == 0) {' 'if ((uint32_t)new_exam == 0) {'
slip_of_one_and_both "salvage: t before exam" 'if (new_exam == 0) {' \
    'if (new_t > MOST_T) { return 7; } if (new_exam == 0) {'
slip "salvage: room before exam" 'if (new_exam == 0) {' 'if (needed > file_len) { return 3; } if (new_exam == 0) {'
slip "salvage: room before t" 'if (new_t > MOST_T) {' 'if (needed > file_len) { return 3; } if (new_t > MOST_T) {'
slip "salvage: t = 17 accepted" 'if (new_t > MOST_T) {' 'if (new_t > MOST_T + 1) {'
slip "salvage: t = 16 refused" 'if (new_t > MOST_T) {' 'if (new_t >= MOST_T) {'
slip "salvage: t cut to 16 bits" 'if (new_t > MOST_T) {' 'if ((uint16_t)new_t > MOST_T) {'
slip "salvage: exactly enough room refused" 'if (needed > file_len) {' 'if (needed >= file_len) {'
slip "salvage: one byte of room too few accepted" 'if (needed > file_len) {' 'if (needed > file_len + 1) {'
slip "salvage: room cut to 32 bits" 'if (needed > file_len) {' 'if (needed > (uint32_t)file_len) {'
slip_of_one_and_both "salvage: room asked for 1,024 entries" 'refuse_salvage(new_exam, new_t, needed, file_len)' \
    'refuse_salvage(new_exam, new_t, row.bytes + ENTRY * MOST_ENTRIES + TRAILER, file_len)'
slip_of_one_and_both "salvage: room asked for all old bytes" 'refuse_salvage(new_exam, new_t, needed, file_len)' \
    'refuse_salvage(new_exam, new_t, old_len + ENTRY * row.blocks + TRAILER, file_len)'
slip "salvage: room asked for the blocks alone" 'refuse_salvage(new_exam, new_t, needed, file_len)' \
    'refuse_salvage(new_exam, new_t, row.bytes + TRAILER, file_len)'
slip_of_one_and_both "salvage: file limit forgotten" 'if (needed > MOST_FILE_BYTES) {' 'if (0) {'
slip "salvage: file limit passed by one byte" 'if (needed > MOST_FILE_BYTES) {' 'if (needed > MOST_FILE_BYTES + 1) {'
slip "salvage: file limit exactly refused" 'if (needed > MOST_FILE_BYTES) {' 'if (needed >= MOST_FILE_BYTES) {'
slip "salvage: file limit by the old bytes" 'refuse_salvage(new_exam, new_t, needed, file_len);' \
    'refuse_salvage(new_exam, new_t, needed, file_len);
    if (!refusal && old_len + ENTRY * row.blocks + TRAILER > MOST_FILE_BYTES) { return 3; }'

# ---- Slips of both sides: a packer whose blocks are longer than they need be. By the first two all words come back. By
# the last the blocks are padded, and refused
slip "both: the residual that the rule leaves is taken" 'int dfcm_is_chosen = dfcm_chosen(' \
    'int dfcm_is_chosen = !dfcm_chosen('
slip "both: dfcm is left out" 'int dfcm_is_chosen = dfcm_chosen(' 'int dfcm_is_chosen = 0 * dfcm_chosen('
slip "both: a zero byte given away" '{ 0, 1, 2, 3, 3, 4, 5, 6, 7 }' '{ 0, 0, 1, 2, 3, 4, 5, 6, 7 }'
