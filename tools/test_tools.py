"""All tests of the tools: `python3 tools/test_tools.py`."""

import unittest

PARTS = ["test_codefile", "test_alist", "test_frames", "test_report_text", "test_histogram",
         "test_sort_frames", "test_picture", "test_channel", "test_samples",
         "test_narrow_sources"]


def load_tests(loader, tests, pattern):
    """unittest's own hook for what this module holds."""
    return loader.loadTestsFromNames(PARTS)


if __name__ == "__main__":
    unittest.main()
