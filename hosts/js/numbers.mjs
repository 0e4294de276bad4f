// The numbers that calls answer, by name and in a sentence.

const NUMBERS = {
  0: ['done', 'done'],
  1: ['passes', 'passes must be a whole number from 1 to 8'],
  2: ['radius', 'the radius must be a whole number from 0 to 1023'],
  3: ['inner', 'the inner weight must be a whole number from 1 to 255'],
  4: ['edge', 'the edge weight must be a whole number from 0 to the inner weight less 1'],
  5: ['bound', "the bound of the samples' size must be a whole number from 1 to 2147483647"],
  6: ['product', 'the bound times the divisor is above 9007199254740991'],
  7: ['size', 'a series has 1 to 65536 samples, a picture 1 to 4096 columns and rows and at most 65536 cells, '
    + 'a job record 1 to 1024 samples'],
  8: ['length', 'a slice is not of the length that the call asks'],
  9: ['position', 'the position must be a whole number from 0 to the number of samples less 1'],
  10: ['value', 'the new value must be a whole number of a size at most the bound'],
  11: ['sample', 'a sample is not a whole number of a size at most the bound, or a double to become a result not '
    + 'one of a size at most 9007199254740991'],
  12: ['result', 'a result has, or would get, a size above the bound times the divisor, or above 9007199254740991'],
  13: ['sigma', 'the standard deviation must be a whole number of hundredths from 1 to 25600'],
  14: ['record', 'the bytes are not a well-formed job record'],
  21: ['mode', 'the mode must be 0, a half to the even neighbour, or 1, a half upward'],
};

const UNKNOWN = ['unknown', 'a number that no call answers'];

export function explain(number) {
  const known = typeof number === 'number' && Object.hasOwn(NUMBERS, number);
  const [name, sentence] = known ? NUMBERS[number] : UNKNOWN;
  return { name, sentence };
}
