// What tests/hijri/run compares the library with, by node's calendar `islamic-civil` alone: the count of the dates from 1899-12-31 to
// 2200-01-03, and a fold over them of the tabular date, the day from 1970-01-01, the Gregorian date, the day of that Islamic year's first
// of Ramadan, and whether the day begins a Ramadan with the shift -1, 0 and 1; then how many do with the shift 0.
//     node tests/hijri/dates.mjs > tests/hijri/folds.txt
const DAY = 86400000;
const first = Date.UTC(1899, 11, 31) / DAY, last = Date.UTC(2200, 0, 3) / DAY;
const format = new Intl.DateTimeFormat("en-u-ca-islamic-civil-nu-latn", { timeZone: "UTC", year: "numeric", month: "numeric", day: "numeric" });

function tabular(day) {
  const parts = Object.fromEntries(format.formatToParts(day * DAY).map((part) => [part.type, parseInt(part.value)]));
  return [parts.year, parts.month, parts.day];
}

const table = new Map(), starts = new Map();
for (let day = first - 400; day <= last + 400; day++) {
  const date = tabular(day);
  table.set(day, date);
  if (date[1] === 9 && date[2] === 1) starts.set(date[0], day);
}

const digits = ([year, month, day]) => year * 10000 + month * 100 + day;
const opens = (day) => (table.get(day)[1] === 9 && table.get(day)[2] === 1 ? 1 : 0);

function values(day) {
  const date = new Date(day * DAY);
  return [
    digits(table.get(day)),
    day + 1000000,
    digits([date.getUTCFullYear(), date.getUTCMonth() + 1, date.getUTCDate()]),
    starts.get(table.get(day)[0]) + 1000000,
    opens(day + 1),
    opens(day),
    opens(day - 1),
  ];
}

let count = 0, folds = new Array(7).fill(0), all = 0;
for (let day = first; day <= last; day++) {
  const of = values(day);
  folds = folds.map((fold, i) => (fold * 31 + (of[i] % 1000000007)) % 1000000007);
  all += opens(day);
  count++;
}
console.log([count, ...folds, all].join("\n"));
