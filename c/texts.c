/* Made by bin/bindings: the calls of hikebox.h that answer a text. They are not proved: the engine's
 * exports answer numbers alone. (It includes nothing, so that the kit's compiler builds it.) */
const char *hikebox_version(void);
const char *hikebox_build(void);
const char *hikebox_status_text(unsigned status);

const char *hikebox_version(void) {
    return "1.0.0";
}

/* (what links the library names it) */
const char *hikebox_build(void) {
    return HIKEBOX_BUILD;
}

const char *hikebox_status_text(unsigned status) {
    switch (status) {
    case 0: return "done";
    case 1: return "the handle is empty";
    case 2: return "the handle holds something of another kind";
    case 3: return "the handle holds something already";
    case 4: return "no memory";
    case 5: return "a number is out of range";
    case 6: return "there is not enough room";
    case 7: return "a struct has another size than its call expects";
    case 10: return "the text is not JSON";
    case 11: return "the value is not a policy";
    case 12: return "a parameter is out of range";
    case 13: return "the policy is too deep";
    case 14: return "the policy has too many nodes";
    case 20: return "the window is before the one that is counted";
    case 30: return "the limit is more than 4294967296 tickets";
    case 31: return "there is no limit that can be raised";
    case 32: return "there is no ticket";
    case 33: return "no more passes can be split off";
    case 34: return "another pass is alive or was dropped";
    case 35: return "the reserve is more than 4294967296 tickets a window";
    case 36: return "the share is more than 1000 tickets a request";
    case 37: return "the window is shorter than 100 ms";
    case 38: return "64 races with others were lost";
    case 39: return "there are no terms that can be set";
    case 40: return "there is no such report";
    case 41: return "no run is under way";
    case 42: return "the pass draws on something else";
    case 43: return "there is no ticket to hand back";
    case 44: return "the requests are more than the pass has parts";
    case 50: return "a lease is wanted";
    case 51: return "the ticket is not out";
    case 52: return "the range was granted already";
    case 60: return "the bucket's level is too low";
    case 61: return "too many requests are in flight";
    case 62: return "too many retries are in flight";
    case 63: return "the breaker is open";
    case 64: return "the breaker's probes are out";
    case 65: return "the throttle refuses";
    case 66: return "the call is out of turn";
    case 70: return "the call would wait too long";
    default: return "no such status";
    }
}
