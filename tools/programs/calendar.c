/* Days by number: days of the week, leap years, and the leaves of a calendar; each date is turned into a number of days and back. */
int putchar(int);

struct Date {
    int year, month, day;
};

static void put_text(const char *text)
{
    while (*text)
        putchar(*text++);
}
static void put_unsigned(unsigned n)
{
    if (n >= 10)
        put_unsigned(n / 10);
    putchar('0' + (int)(n % 10));
}

static int is_leap(int year)
{
    return year % 4 == 0 && year % 100 != 0 || year % 400 == 0;
}

static int days_of(int year, int month)
{
    static const char days[13] = { 0, 31, 28, 31, 30, 31, 30, 31, 31, 30, 31, 30, 31 };
    return days[month] + (month == 2 && is_leap(year));
}

/* Days since the first of March of the year 0. */
static int number_of(const struct Date *date)
{
    int year = date->month > 2 ? date->year : date->year - 1, month = (date->month + 9) % 12;
    return year * 365 + year / 4 - year / 100 + year / 400 + (month * 306 + 5) / 10 + date->day - 1;
}

static void date_of(int number, struct Date *date)
{
    struct Date begin;
    begin.year = number / 366;
    begin.month = 3;
    begin.day = 1;
    while (number_of(&begin) <= number)
        begin.year++;
    begin.year--;
    number -= number_of(&begin);
    date->month = (number * 10 + 5) / 306;
    date->day = number - (date->month * 306 + 5) / 10 + 1;
    date->month += date->month < 10 ? 3 : -9;
    date->year = date->month > 2 ? begin.year : begin.year + 1;
}

static void print_month(int year, int month)
{
    struct Date first;
    int day, column;
    first.year = year;
    first.month = month;
    first.day = 1;
    put_text(" M  T  W  T  F  S  S\n");
    column = (number_of(&first) + 2) % 7;
    for (day = 0; day < column; day++)
        put_text("   ");
    for (day = 1; day <= days_of(year, month); day++) {
        if (day < 10)
            putchar(' ');
        put_unsigned(day);
        putchar((column + day) % 7 && day < days_of(year, month) ? ' ' : '\n');
    }
}

int main(void)
{
    struct Date date, again;
    int wrong = 0;
    print_month(2024, 2);
    print_month(2026, 11);
    for (date.year = 1996; date.year <= 2005; date.year++)
        for (date.month = 1; date.month <= 12; date.month++)
            for (date.day = 1; date.day <= days_of(date.year, date.month); date.day += 3) {
                date_of(number_of(&date), &again);
                wrong += again.year != date.year || again.month != date.month || again.day != date.day;
            }
    return wrong;
}
