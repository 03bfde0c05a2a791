"""Tests of apdi: .ci/terminal runs them."""
