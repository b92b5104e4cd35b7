/* Whether all parsers give the same answers, and those of the written examples. */
#ifndef ANSWERS_H
#define ANSWERS_H

#include "streams.h"

/* Tries the examples, the streams and cases made from them and from seeds. Prints how many
 * were tried; ends the program with status 1 at the first wrong answer. */
void check_answers(const struct stream streams[STREAMS]);

#endif
