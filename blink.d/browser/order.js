// Lists in order.

// The least of the numbers from 0 to count at which the test holds, where it holds for all greater ones too; else the count.
export function firstWhere(count, test) {
  let low = 0, high = count;
  while (low < high) {
    const middle = (low + high) >> 1;
    if (test(middle)) high = middle;
    else low = middle + 1;
  }
  return low;
}

// For sorting by numbers of any size.
export const compare = (one, other) => (one < other ? -1 : one > other ? 1 : 0);
