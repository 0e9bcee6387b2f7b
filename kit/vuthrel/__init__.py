"""The command `vuthrel`: what a user does with a provider, over the programs geli and geli-nbd."""
