@id("texts")
permit(principal, action == Action::"edit", resource) when {
  [ip("1.2.3.4"), ip("1.2.3.4/32"), ip("::1"), ip("2001:db8::/32"), ip("ffff::/128")].isEmpty() ||
  [decimal("0.0"), decimal("-12.3456"), decimal("922337203685477.5807"), decimal("-922337203685477.5808")].isEmpty() ||
  [datetime("2024-02-29"), datetime("2023-12-31T23:59:59Z"), datetime("2023-12-31T00:00:00.123+2359"), datetime("0000-01-01T00:00:00-0000")].isEmpty() ||
  [duration("1d2h3m4s5ms"), duration("-5m"), duration("10ms"), duration("9223372036854775807ms")].isEmpty()
};

@id("no texts")
permit(principal, action == Action::"edit", resource) when {
  [ip("1.2.3"),
   ip("1.2.3.4/33"),
   ip("01.2.3.4"),
   ip("::1.2.3.4"),
   ip("1.2.3.4/01"),
   ip("")].isEmpty() ||
  [decimal("1"),
   decimal("1."),
   decimal(".5"),
   decimal("1.23456"),
   decimal("922337203685477.5808")].isEmpty() ||
  [datetime("2023-02-29"),
   datetime("2024-13-01"),
   datetime("2024-01-01T24:00:00Z"),
   datetime("2024-01-01T00:00:00"),
   datetime("2024-1-01"),
   datetime("2024-01-01T00:00:00.1Z")].isEmpty() ||
  [duration("1"),
   duration("1h1d"),
   duration("1d1d"),
   duration("9223372036854775808ms"),
   duration("- 1h")].isEmpty()
};
