"""A switch to try the gateway with: messages by a dialect's file, software cards, a load; tools/terminal runs it."""
