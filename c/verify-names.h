/* The other names of opgp-verify, each with the command line, lines and statuses of another program: opgp-sopv (sopv, of
 * draft-dkg-openpgp-stateless-cli), opgp-sqv (Sequoia's sqv) and opgp-gpgv (GnuPG's gpgv). */
#ifndef OPGP_VERIFY_NAMES_H
#define OPGP_VERIFY_NAMES_H

/* Does what the words of a command line ask for, which end in NULL; the exit status. */
typedef int dialect(char **words);

/* What a program does that was started by this name: as opgp-sopv and so on, with or without `opgp-` in front; NULL for any other. */
dialect *dialect_of(const char *started);

#endif
