permit(principal, action, resource) when { resource.owner = principal };
permit(principal, action resource);
permit(principal, action, resource) when { principal.age < 99999999999999999999 };
permit(principal, action, resource) when { principal == ?principal };
permit(principal, action, resource) when { principal.age < 18 }
permit(principal, action, resource) when { "open };
