// The names of the printer's control codes: what tools/codes makes of crates/pr_page/specs/Codes.antt.

export const CODE_NAMES = {
  8: 'graphic mode',
  10: 'line feed',
  13: 'return',
  14: 'double width',
  15: 'standard width',
  16: 'column',
  17: 'lower case',
  18: 'reverse on',
  26: 'repeat',
  27: 'escape',
  145: 'upper case',
  146: 'reverse off',
};
