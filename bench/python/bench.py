"""Runs the works of a folder by numpy, scipy, OpenCV and Pillow: bench.py check|time FOLDER LIBRARY, where the last is
Dungdapple as a shared object. Without arguments it says which of them are installed, in which version."""
import importlib

from harness import measured, mode, works
from ours import smoother


def installed(name):
    try:
        return importlib.import_module(name)
    except ImportError:
        return None


LIBRARIES = {'numpy': 'numpy', 'scipy': 'scipy', 'opencv': 'cv2', 'pillow': 'PIL'}
found = {name: installed(module) for name, module in LIBRARIES.items()}
np, cv2 = found['numpy'], found['opencv']
ndimage = installed('scipy.ndimage')
pillow = installed('PIL.Image') and installed('PIL.ImageFilter')

# The results of these are whole numbers. Those of the others are rounded on the way: they are saved over the divisor.
EXACT = ('python-ours', 'numpy', 'scipy-convolve', 'opencv-filter', 'opencv-box')


def numpy_rows(work, rows):
    """All passes of every row, by sums from the start of the row on."""
    n, before = rows.shape[1], 2 * work.radius + 2
    for _ in range(work.passes):
        padded = np.pad(rows, ((0, 0), (work.radius + 1, work.radius + 1)), mode='symmetric')
        sums = np.cumsum(padded, axis=1)
        windows = sums[:, before - 1:before - 1 + n] - sums[:, :n]
        rows = work.inner * windows
        if work.edge:
            rows += work.edge * (padded[:, :n] + padded[:, before:])
    return rows


def numpy_smooth(work, whole):
    results = numpy_rows(work, whole)
    if work.kind == 'picture':
        results = numpy_rows(work, np.ascontiguousarray(results.T)).T
    return results


def each_way(work, one_pass, cells):
    """One pass after another across, and down where the work is a picture."""
    for axis in (1, 0) if work.kind == 'picture' else (1,):
        for _ in range(work.passes):
            cells = one_pass(cells, axis)
    return cells


def scipy_convolve(work, doubles):
    taps = np.array(work.taps, dtype=np.float64)
    return each_way(work, lambda cells, axis: ndimage.convolve1d(cells, taps, axis=axis, mode='reflect'), doubles)


def scipy_uniform(work, doubles):
    """A window with edges is a narrow mean and a wide one, weighed."""
    narrow, wide = 2 * work.radius + 1, 2 * work.radius + 3
    share = work.edge * wide / sum(work.taps)

    def one_pass(cells, axis):
        mean = ndimage.uniform_filter1d(cells, narrow, axis=axis, mode='reflect')
        if not work.edge:
            return mean
        return (1 - share) * mean + share * ndimage.uniform_filter1d(cells, wide, axis=axis, mode='reflect')

    return each_way(work, one_pass, doubles)


def opencv_filter(work, doubles):
    taps, one = np.array(work.taps, dtype=np.float64), np.ones(1)
    down = taps if work.kind == 'picture' else one
    for _ in range(work.passes):
        doubles = cv2.sepFilter2D(doubles, cv2.CV_64F, taps, down, borderType=cv2.BORDER_REFLECT)
    return doubles


def opencv_box(work, doubles):
    def window(cells, size, axis):
        box = (size, 1) if axis == 1 else (1, size)
        return cv2.boxFilter(cells, cv2.CV_64F, box, normalize=False, borderType=cv2.BORDER_REFLECT)

    def one_pass(cells, axis):
        narrow = window(cells, 2 * work.radius + 1, axis)
        if not work.edge:
            return narrow if work.inner == 1 else work.inner * narrow
        wide = window(cells, 2 * work.radius + 3, axis)
        return cv2.addWeighted(narrow, work.inner - work.edge, wide, work.edge, 0)

    return each_way(work, one_pass, doubles)


def pillow_box(work, image):
    for _ in range(work.passes):
        image = image.filter(found['pillow'].ImageFilter.BoxBlur(work.radius + work.edge / work.inner))
    return image


def smoothing_measures(work, samples):
    whole = samples.astype(np.int64).reshape(work.height, work.width)
    doubles = whole.astype(np.float64)
    programs = [('python-ours', smoother(np, work, samples)), ('numpy', lambda: numpy_smooth(work, whole))]
    if ndimage:
        programs.append(('scipy-convolve', lambda: scipy_convolve(work, doubles)))
        programs.append(('scipy-uniform', lambda: scipy_uniform(work, doubles)))
    if cv2:
        programs.append(('opencv-filter', lambda: opencv_filter(work, doubles)))
        programs.append(('opencv-box', lambda: opencv_box(work, doubles)))
    if pillow and work.kind == 'picture':
        image = found['pillow'].Image.fromarray(whole.astype(np.uint8))
        programs.append(('pillow', lambda: pillow_box(work, image)))
    measured(work, 'smooth', work.n, programs, lambda name, given: (
        np.asarray(given).astype(np.int64 if name in EXACT else np.float64)))


def taken(bound, doubles):
    if not np.all((np.abs(doubles) <= bound) & (np.trunc(doubles) == doubles)):
        raise ValueError('not samples')
    return doubles.astype(np.int32)


def summary(divisor, results):
    lowest, highest = np.argmin(results), np.argmax(results)
    return np.array([results[lowest] / divisor, results[highest] / divisor, lowest, highest], dtype=np.float64)


def output_measures(work, samples):
    doubles, divisor = samples.astype(np.float64), work.divisor
    one_sign = np.abs(doubles)
    results = numpy_rows(work, samples.astype(np.int64).reshape(1, work.n))[0]
    exact = results.astype(np.float64)
    for measure, run in (
            ('doubles_in_mixed', lambda: taken(work.bound, doubles)),
            ('doubles_in_one_sign', lambda: taken(work.bound, one_sign)),
            ('doubles', lambda: results / divisor),
            ('whole_upward', lambda: ((2 * results + divisor) // (2 * divisor)).astype(np.int32)),
            ('summary', lambda: summary(divisor, results)),
            ('results_to_doubles', lambda: results.astype(np.float64)),
            ('doubles_to_results', lambda: exact.astype(np.int64))):
        measured(work, measure, work.n, [('numpy', run)], lambda _, given: given)


MEASURES = {'series': smoothing_measures, 'picture': smoothing_measures, 'outputs': output_measures}


def main():
    if mode == 'ask':
        for name, module in found.items():
            print(name, module.__version__ if module else 'absent')
        return
    if not np:
        return
    if cv2:
        cv2.setNumThreads(1)
    for work in works():
        if work.kind in MEASURES:
            MEASURES[work.kind](work, np.fromfile(work.path('samples'), dtype='<i4'))


main()
