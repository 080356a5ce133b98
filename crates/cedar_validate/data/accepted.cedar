@id("owners")
permit(principal, action, resource) when { resource.owner == principal };

permit(principal is User in Group::"staff", action in [Action::"view", Action::"share it"], resource is Photo)
when { resource.public && context.now >= datetime("2024-02-29T23:59:59.000Z") }
unless { principal.age <= 17 || principal.home.city != "Rome" };

// the marked ones
forbid(principal, action == Action::"edit", resource)
unless { principal has vip && principal.vip };

permit(principal in ?principal, action == Action::"view", resource)
when { context has device.zip && context.device.zip like "00*" && resource.from.isInRange(ip("10.0.0.0/8")) };

permit(principal, action, resource)
when { principal is User in Group::"staff" && resource.status == Status::"open" && principal.hasTag("mark\u{21}") };
