rows x
