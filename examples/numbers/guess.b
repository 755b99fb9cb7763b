implement Guess;

include "sys.m";
sys: Sys;
include "draw.m";

Guess: module {
    init: fn(ctxt: ref Draw->Context, argv: list of string);
};

# Guesses a secret number by halving, and says how many guesses numbers take on average.

secret: int;
quiet := 0;

answer(guess: int): int {
    if (guess == secret)
        return 0;
    if (guess < secret)
        return -1;
    return 1;
}

search(low, high: int): int {
    tries := 0;
    while (low <= high) {
        mid := low + (high - low) / 2;
        tries++;
        a := answer(mid);
        if (!quiet) {
            sys->print("is it %d? ", mid);
            if (a < 0)
                sys->print("more\n");
            else if (a > 0)
                sys->print("less\n");
            else
                sys->print("yes\n");
        }
        if (a == 0)
            return tries;
        if (a < 0)
            low = mid + 1;
        else
            high = mid - 1;
    }
    return -1;
}

init(nil: ref Draw->Context, nil: list of string) {
    sys = load Sys Sys->PATH;
    secret = 73;
    sys->print("%d tries\n", search(1, 100));
    quiet = 1;
    sum := most := 0;
    for (secret = 1; secret <= 1000; secret++) {
        t := search(1, 1000);
        sum += t;
        if (t > most)
            most = t;
    }
    sys->print("%d.%d%d%d on average, %d at most\n", sum / 1000, sum / 100 % 10, sum / 10 % 10, sum % 10, most);
    secret = 2000;
    sys->print("%d\n", search(1, 1000));
    secret = 2147483600;
    sys->print("%d\n", search(0, 2147483647));
}
