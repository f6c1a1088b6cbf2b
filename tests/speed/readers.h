/* Whether the card readers that tests/speed measures agree. */
#ifndef READERS_H
#define READERS_H

/* Sets the library's, the plain one and the reference against each other, on the subjects cut short at every length and on
 * random cards, good, spoiled, damaged and stated. Prints how many there were of which answer. */
void compare_card_readers(void);

#endif
