/* Noughts and crosses by looking ahead with bounds; moves of the first player come from the input, the answers are the best ones. */
int putchar(int);
int getchar(void);

static const char lines[8][3] = { { 0, 1, 2 }, { 3, 4, 5 }, { 6, 7, 8 }, { 0, 3, 6 }, { 1, 4, 7 }, { 2, 5, 8 }, { 0, 4, 8 }, { 2, 4, 6 } };
static char board[9];
static int looked;

static void put_text(const char *text)
{
    while (*text)
        putchar(*text++);
}

static char winner(void)
{
    int i;
    for (i = 0; i < 8; i++) {
        char first = board[(int)lines[i][0]];
        if (first && first == board[(int)lines[i][1]] && first == board[(int)lines[i][2]])
            return first;
    }
    return 0;
}

static int is_full(void)
{
    int i;
    for (i = 0; i < 9; i++)
        if (!board[i])
            return 0;
    return 1;
}

/* The worth of the board for the one to move, between the bounds; the best move where it is asked for. */
static int worth(char player, int low, int high, int *best)
{
    int i;
    looked++;
    if (winner())
        return -10;
    if (is_full())
        return 0;
    for (i = 0; i < 9; i++)
        if (!board[i]) {
            int value;
            board[i] = player;
            value = -worth(player == 'X' ? 'O' : 'X', -high, -low, 0);
            board[i] = 0;
            if (value > low) {
                low = value;
                if (best)
                    *best = i;
            }
            if (low >= high)
                break;
        }
    return low;
}

static void draw(void)
{
    int i;
    for (i = 0; i < 9; i++) {
        putchar(board[i] ? board[i] : '-');
        if (i % 3 == 2)
            putchar('\n');
    }
    putchar('\n');
}

int main(void)
{
    int c, best;
    while (!winner() && !is_full() && (c = getchar()) != -1) {
        if (c < '1' || c > '9' || board[c - '1'])
            continue;
        board[c - '1'] = 'X';
        if (!winner() && !is_full()) {
            best = 0;
            worth('O', -11, 11, &best);
            board[best] = 'O';
        }
        draw();
    }
    if (winner()) {
        putchar(winner());
        put_text(" wins\n");
    } else {
        put_text("a draw\n");
    }
    return looked & 255;
}
