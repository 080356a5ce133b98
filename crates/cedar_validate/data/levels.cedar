@id("boss")
permit(principal, action == Action::"edit", resource)
when { resource.owner.boss == principal };

@id("ann")
permit(principal, action == Action::"edit", resource)
when { User::"ann".age < 18 };
