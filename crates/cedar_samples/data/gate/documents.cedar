@id("owners")
permit(principal, action, resource) when { resource.owner == principal };

@id("folders")
permit(principal, action == Action::"view", resource) when { resource.folder.owner == principal };

@id("leads")
permit(principal, action == Action::"view", resource) when { resource.owner.team.lead == principal };

@id("vips")
permit(principal, action == Action::"view", resource) when { principal.vip && resource.level < 3 };

@id("levels")
forbid(principal, action, resource) when { 3 < resource.level } unless { principal has vip && principal.vip };

@id("freeze")
forbid(principal, action == Action::"share", resource) when { datetime("2026-13-01") < context.now };

@id("strangers")
permit(principal, action, resource) when { principal has badge };
