"""Dungdapple's C library as Python calls it, so that the libraries here are timed in turns with it."""
import ctypes

from harness import library

SIZE, DOUBLE, NUMBER = ctypes.c_size_t, ctypes.c_double, ctypes.c_uint32


def slice_of(array):
    return ctypes.c_void_p(array.ctypes.data), SIZE(array.size)


def smoother(np, work, samples):
    """A call that smooths the samples into the array that it gives."""
    calls = ctypes.CDLL(library)
    plan = np.array([work.radius, work.inner, work.edge, work.passes], dtype=np.float64)
    results, room = np.zeros(work.n, dtype=np.int64), np.zeros(work.n, dtype=np.int64)
    place, bad = NUMBER(), NUMBER()
    slices = *slice_of(samples), *slice_of(results), *slice_of(room), ctypes.byref(place), ctypes.byref(bad)
    if work.kind == 'picture':
        call = calls.dungdapple_smooth_picture
        words = *slice_of(plan), *slice_of(plan), DOUBLE(work.bound), DOUBLE(work.width), DOUBLE(work.height), *slices
    else:
        call = calls.dungdapple_smooth_series
        words = *slice_of(plan), DOUBLE(work.bound), *slices
    call.restype = NUMBER

    def run():
        number = call(*words)
        if number != 0:
            raise ValueError(f'refused by {number}')
        return results

    # the call reads these as long as it is used
    run.kept = (plan, samples, room)
    return run
