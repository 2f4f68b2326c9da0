/* The printer's control codes: what tools/codes makes of crates/pr_page/specs/Codes.antt. */
#define CODES 8, 10, 13, 14, 15, 16, 17, 18, 26, 27, 145, 146
