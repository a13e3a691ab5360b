"""What bench/run makes of its measures."""
from viewd_bench.measure import slope
from viewd_bench.report import number, table


def test_a_slope_is_the_power_of_the_size() -> None:
    assert abs(slope([10, 100, 1000], [5, 50, 500]) - 1.0) < 1e-9
    assert abs(slope([10, 100, 1000], [7, 7, 7])) < 1e-9
    assert abs(slope([1, 2, 4], [3, 12, 48]) - 2.0) < 1e-9


def test_a_number_has_three_digits_at_least() -> None:
    assert [number(it) for it in (1234.6, 123.4, 12.34, 1.234, None)] == ["1,235", "123", "12.3", "1.23", ""]


def test_a_table_has_its_heads() -> None:
    assert table([{"a": "1", "b": "x"}, {"a": "2", "b": "y"}]) == "| a | b |\n| --- | --- |\n| 1 | x |\n| 2 | y |\n"
