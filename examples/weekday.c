// The day of the week of a date from 1970 on, 0 for Sunday. The module
// that clang makes of it, with the lines of its code, is weekday.wasm:
//
//     clang --target=wasm32 -mcpu=mvp -O0 -gline-tables-only -gdwarf-4 \
//       -fdebug-compilation-dir=. -nostdlib -Wl,--no-entry \
//       -o weekday.wasm weekday.c

enum { NO_DATE = -1, WEDNESDAY = 3 };

static int is_leap(int year) {
  return year % 4 == 0 && (year % 100 != 0 || year % 400 == 0);
}

static int days_of(int month, int year) {
  switch (month) {
  case 2:
    return is_leap(year) ? 29 : 28;
  case 4: case 6: case 9: case 11:
    return 30;
  default:
    return 31;
  }
}

static int is_date(int year, int month, int day) {
  if (year < 1970 || month < 1 || month > 12)
    return 0;
  return day >= 1 && day <= days_of(month, year);
}

__attribute__((export_name("weekday")))
int weekday(int year, int month, int day) {
  if (!is_date(year, month, day))
    return NO_DATE;
  int days = WEDNESDAY + day; // the first of January 1970 was a Thursday
  for (int before = 1970; before < year; before++)
    days += is_leap(before) ? 366 : 365;
  for (int before = 1; before < month; before++)
    days += days_of(before, year);
  return days % 7;
}
