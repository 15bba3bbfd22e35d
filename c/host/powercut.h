/*
 * A disk on which nothing stays that was not forced there. The host under test is linked with
 * powercut.c in place of write, fsync, rename and unlink, which then leave a mark beside each file
 * whose last change a power cut could still undo. The test kills a part and then undoes what the
 * marks allow, by chance, as a power cut would.
 *
 * A process that is only killed loses nothing that it has written: without this, a host that
 * never calls fsync would pass.
 *
 * A process may also be killed at a moment that is not left to chance: before the n-th step, a
 * write, fsync, rename or unlink, right after the n-th rename, or before the n-th contact with
 * other processes, a claim or a new socket, where the environment has that n. And so the n-th fsync
 * may fail.
 */
#ifndef HOST_POWERCUT_H
#define HOST_POWERCUT_H

#define MARK_TORN ".~torn" /* written and not forced: any part of it may be missing */
#define MARK_OLD ".~old"   /* the file that a rename put away, with the folder not yet forced */
#define MARK_NEW ".~new"   /* there was no file before the rename */
#define MARK_GONE ".~gone" /* the file that was removed, with the folder not yet forced */

#define BEFORE_STEP "POWERCUT_BEFORE_STEP"
#define AFTER_RENAME "POWERCUT_AFTER_RENAME"
#define BEFORE_CONTACT "POWERCUT_BEFORE_CONTACT"
#define FORCING_FAILS "POWERCUT_FORCING_FAILS"

#endif
