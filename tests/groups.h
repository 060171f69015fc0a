/* The groups of comparisons. Rounds makes a group longer; each group says what it ran. */
#ifndef GROUPS_H
#define GROUPS_H

void group_blocks(unsigned rounds);
void group_before(unsigned rounds);
void group_files(unsigned rounds);
void group_damage(unsigned rounds);
void group_replace(unsigned rounds);
void group_many(unsigned rounds);
void group_salvage(unsigned rounds);
void group_padded(unsigned rounds);
void group_order(unsigned rounds);
void group_far(unsigned rounds);
void group_shortest(unsigned rounds);

#endif
