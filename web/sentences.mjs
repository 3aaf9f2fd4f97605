/** What each kind of fault means, as the program's man page says it. */
export const SENTENCES = SENTENCES_OF_THE_MAN_PAGE;
