permit(principal, action == Action::"view", resource is Photo)
when { resource.isPubic };

permit(principal, action == Action::"edit", resource) when {
	principal.vip && principal.age > "1"
};

permit(principal, action == Action::"edit", resource)
when { ip("10.0.0.256") == resource.from };

permit(principal, action == Action::"edit", resource)
when { ip(principal.home.city) == resource.from };

permit(principal, action == Action::"edit", resource)
when { resource.status == Status::"opn" };

permit(principal, action == Action::"veiw", resource);

permit(principal == Album::"summer", action, resource);

permit(principal == Group::"staff", action, resource);

permit(principal, action, resource)
when { context.now > datetime("2024-01-01") };
