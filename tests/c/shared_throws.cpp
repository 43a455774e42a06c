// What is thrown through a shared engine by tests in C, and caught there.
extern "C" void throws_one();
extern "C" int catches_one(void (*call)(void *of), void *of);

extern "C" void throws_one() { throw 1; }

extern "C" int catches_one(void (*call)(void *of), void *of)
{
    try {
        call(of);
    } catch (int thrown) {
        return thrown == 1;
    }
    return 0;
}
