// Dates as days since 1 March of year 0: weekdays, leap years, and the date some days later.

const char *days[7] = {"Sun", "Mon", "Tue", "Wed", "Thu", "Fri", "Sat"};

struct date {
  int year, month, day;
};

int is_leap(int year) { return year % 4 == 0 && year % 100 != 0 || year % 400 == 0; }

int days_of(struct date *d) {
  int year = d->month < 3 ? d->year - 1 : d->year;
  int month = (d->month + 9) % 12;
  return 365 * year + year / 4 - year / 100 + year / 400 + (153 * month + 2) / 5 + d->day - 1;
}

void set_date(struct date *d, int days) {
  int era = days / 146097, rest = days % 146097;
  int year = (rest - rest / 1460 + rest / 36524 - rest / 146096) / 365;
  int day = rest - (365 * year + year / 4 - year / 100);
  int month = (5 * day + 2) / 153;
  d->day = day - (153 * month + 2) / 5 + 1;
  d->month = month < 10 ? month + 3 : month - 9;
  d->year = year + era * 400 + (d->month < 3);
}

void put_digits(int n, int digits) {
  int unit = 1;
  while (--digits)
    unit *= 10;
  for (; unit; unit /= 10)
    putchar('0' + n / unit % 10);
}

void put(struct date *d) {
  const char *name = days[(days_of(d) + 3) % 7];
  while (*name)
    putchar(*name++);
  putchar(' ');
  put_digits(d->year, 4);
  putchar('-');
  put_digits(d->month, 2);
  putchar('-');
  put_digits(d->day, 2);
  if (is_leap(d->year))
    putchar('*');
  putchar('\n');
}

int main(int year, int month, int day, int later) {
  struct date d;
  d.year = year;
  d.month = month;
  d.day = day;
  put(&d);
  set_date(&d, days_of(&d) + later);
  put(&d);
  return (days_of(&d) + 3) % 7;
}
