/* Whether all rows say the same. */
#ifndef ANSWERS_H
#define ANSWERS_H

/* Compares every row with the reply by definition, in every cell and at every point, and the two checks on damaged maps;
   prints what it did. 0 where nothing differs. */
int compare_answers(const char *folder);

#endif
